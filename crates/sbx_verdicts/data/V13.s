! V13: the loop begins with %o1 from 1 to 10, and comes to its first round with 11.
.services exit
.function main,leaf,0,0,60
.fuel 60
    mov 11,%o1
.block loop
.cell %o1,1,10,0
.fuel 10
.term %o1,3
    deccc %o1
    bne loop
    nop
.block done
.fuel 4
    mov 0,%o0
    ta 0
