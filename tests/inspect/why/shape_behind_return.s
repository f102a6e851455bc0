! V3: a word of the same block behind the slot of a return.
.services exit
.function main,framed,96,96,90
.fuel 90
    save %sp,-96,%sp
    call f
    nop
    mov 0,%o0
    ta 0
.function f,leaf,0,0,9
.fuel 9
    retl
    nop
    nop
