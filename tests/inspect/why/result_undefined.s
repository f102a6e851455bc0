! V17: the function says that it gives a number from 0 to 9, and writes none.
.services exit
.function main,framed,96,96,60
.fuel 60
    save %sp,-96,%sp
    call digit
    nop
    mov 0,%o0
    ta 0
.function digit,leaf,0,0,10
.result 0,9,0
.fuel 10
    retl
    nop
