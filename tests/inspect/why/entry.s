! The first block's fuel counts the parameter, and is least where that is 0: the budget has to last where it is 9.
.services exit
.function main,framed,96,192,90
.fuel 90
    save %sp,-96,%sp
    mov 3,%o0
    call less
    nop
    mov 0,%o0
    ta 0
.function less,leaf,0,0,5
.param 0,9,0
.fuel 4
.term %o0,3
    retl
    nop
