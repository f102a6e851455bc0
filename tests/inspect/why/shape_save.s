! V3: a second SAVE.
.services exit
.function main,framed,96,96,90
.fuel 90
    save %sp,-96,%sp
    save %sp,-96,%sp
    mov 0,%o0
    ta 0
