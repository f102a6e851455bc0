! V13: the callee takes two parameters, and the second one was never written.
.services exit
.function main,framed,96,96,60
.fuel 60
    save %sp,-96,%sp
    mov 3,%o0
    call digit
    nop
    mov 0,%o0
    ta 0
.function digit,leaf,0,0,10
.param 0,9,0
.param 0,9,0
.fuel 10
    retl
    nop
