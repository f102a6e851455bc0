! V5: a call to where no code is.
.services exit
.function main,framed,96,96,200
.fuel 200
    save %sp,-96,%sp
    call .+4000
    nop
    mov 0,%o0
    ta 0
