! V6: a function that is called reads what may be a parameter, and isn't declared.
.services exit
.function main,framed,96,96,200
.fuel 200
    save %sp,-96,%sp
    mov 1,%o0
    call f
    nop
    mov 0,%o0
    ta 0
.function f,leaf,0,0,9
.fuel 9
    add %o0,1,%o1
    retl
    nop
