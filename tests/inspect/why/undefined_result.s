! V6: what a call gives back in %o0 is read, and the function that is called declares no result.
.services exit
.function main,framed,96,96,200
.fuel 200
    save %sp,-96,%sp
    call f
    nop
    ta 0
.function f,leaf,0,0,2
.fuel 2
    retl
    mov 0,%o0
