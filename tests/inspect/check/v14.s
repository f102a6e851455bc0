! V14: a round is 3 turns, and the fuel falls by 2 a round.
.services exit
.function main,leaf,0,0,60
.fuel 60
    mov 10,%o1
.block loop
.cell %o1,1,10,0
.fuel 10
.term %o1,2
    deccc %o1
    bne loop
    nop
.block done
.fuel 4
    mov 0,%o0
    ta 0
