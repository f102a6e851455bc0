! V3: a `ret` with another word than RESTORE in its slot.
.services exit
.function main,framed,96,192,200
.fuel 200
    save %sp,-96,%sp
    call f
    nop
    mov 0,%o0
    ta 0
.function f,framed,96,96,90
.fuel 90
    save %sp,-96,%sp
    ret
    nop
