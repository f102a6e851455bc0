! The stack room has the function's own frame, and not its callee's.
.services exit
.function main,framed,96,96,60
.fuel 60
    save %sp,-96,%sp
    call other
    nop
    mov 0,%o0
    ta 0
.function other,framed,96,96,60
.fuel 60
    save %sp,-96,%sp
    ret
    restore
