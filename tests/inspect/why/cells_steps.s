! V13: a number falls by 3 in each round, and the branch ends the rounds where it is 0 alone.
.services exit
.function main,leaf,0,0,60
.fuel 60
    mov 9,%o1
.block loop
.cell %o1,1,9,0
.fuel 12
    subcc %o1,3,%o1
    bne loop
    nop
.block done
.fuel 4
    mov 0,%o0
    ta 0
