! V6: the second of two results is read, and the function that is called declares none.
.services exit
.function main,framed,96,96,200
.fuel 200
    save %sp,-96,%sp
    call f
    nop
    mov %o1,%o0
    ta 0
.function f,leaf,0,0,2
.fuel 2
    retl
    mov 0,%o0
