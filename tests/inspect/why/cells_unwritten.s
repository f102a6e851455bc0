! V13: a loop counts in %o1, which a call in its rounds doesn't keep.
.services exit
.function main,framed,96,96,200
.fuel 200
    save %sp,-96,%sp
    mov 3,%o1
.block loop
.cell %o1,0,3,0
.fuel 90
    call f
    nop
    ba loop
    nop
.function f,leaf,0,0,2
.fuel 2
    retl
    nop
