! V5: a call of an earlier function.
.services exit
.function main,framed,96,192,200
.fuel 200
    save %sp,-96,%sp
    call f
    nop
    mov 0,%o0
    ta 0
.function f,framed,96,96,90
.fuel 90
    save %sp,-96,%sp
    call main
    nop
    ret
    restore
