! V6: a local that is read behind SAVE.
.services exit
.function main,framed,96,96,90
.fuel 90
    save %sp,-96,%sp
    mov %l0,%o0
    ta 0
