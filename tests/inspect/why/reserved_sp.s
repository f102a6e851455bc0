! V7: %sp as a number.
.services exit
.function main,framed,96,96,90
.fuel 90
    save %sp,-96,%sp
    mov %sp,%o0
    ta 0
