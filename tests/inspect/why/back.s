! %i7 is read by an instruction that isn't its own.
.services exit
.function main,framed,96,96,60
.fuel 60
    save %sp,-96,%sp
    add %i7,8,%o0
    mov 0,%o0
    ta 0
