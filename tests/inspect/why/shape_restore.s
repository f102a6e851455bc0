! V3: a RESTORE that no return stands before.
.services exit
.function main,framed,96,96,90
.fuel 90
    save %sp,-96,%sp
    restore
    mov 0,%o0
    ta 0
