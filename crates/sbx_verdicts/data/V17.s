! V17: the function says that it gives a number from 0 to 9, and gives 10.
.services exit
.function main,framed,96,96,40
.fuel 40
    save %sp,-96,%sp
    call digit
    nop
    mov 0,%o0
    ta 0
.function digit,leaf,0,0,3
.result 0,9,0
.fuel 3
    mov 10,%o0
    retl
    nop
