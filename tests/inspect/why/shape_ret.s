! V3: a leaf that returns by `ret`.
.services exit
.function main,framed,96,96,200
.fuel 200
    save %sp,-96,%sp
    call f
    nop
    mov 0,%o0
    ta 0
.function f,leaf,0,0,90
.fuel 90
    ret
    restore
