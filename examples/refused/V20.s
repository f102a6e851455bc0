! V20: the leaf says that its depth is 1, so a call of it takes 2, and main has 1.
.services exit
.function main,framed,96,96,33
.depth 1
.fuel 33
    save %sp,-96,%sp
    call one
    nop
    mov 0,%o0
    ta 0
.function one,leaf,0,0,2
.depth 1
.fuel 2
    retl
    nop
