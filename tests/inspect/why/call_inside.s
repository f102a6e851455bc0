! V5: a call into the middle of a function.
.services exit
.function main,framed,96,96,200
.fuel 200
    save %sp,-96,%sp
    call inside
    nop
    mov 0,%o0
    ta 0
.function f,leaf,0,0,3
.fuel 3
    nop
inside:
    retl
    nop
