! V6: a global that is read behind a call.
.services exit
.function main,framed,96,96,200
.fuel 200
    save %sp,-96,%sp
    call f
    nop
    mov %g1,%o0
    ta 0
.function f,leaf,0,0,2
.fuel 2
    retl
    nop
