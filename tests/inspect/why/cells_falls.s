! V13: a number falls by 1 in each round of two blocks, and no comparison ends the rounds before it leaves its cell.
.services exit
.function main,leaf,0,0,60
.fuel 60
    mov 10,%o1
.block loop
.cell %o1,0,10,0
.fuel 20
    dec %o1
.block rest
.cell %o1,-1,10,0
.fuel 10
    btst 1,%o1
    bne loop
    nop
.block done
.fuel 4
    mov 0,%o0
    ta 0
