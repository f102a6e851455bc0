! The callee takes 0 to 9, and is called with 11: told where the slot of the call has run.
.services exit
.function main,framed,96,96,60
.fuel 60
    save %sp,-96,%sp
    mov 11,%o0
    call digit
    nop
    mov 0,%o0
    ta 0
.function digit,leaf,0,0,10
.param 0,9,0
.result 0,5,0
.fuel 10
    mov 1,%o0
    retl
    nop
