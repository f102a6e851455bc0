! V13: a number grows by 1 in each round, and no comparison ends the rounds before it leaves its cell.
.services exit
.function main,leaf,0,0,60
.fuel 60
    mov 0,%o1
.block loop
.cell %o1,0,10,0
.fuel 10
    inc %o1
    btst 1,%o1
    bne loop
    nop
.block done
.fuel 4
    mov 0,%o0
    ta 0
