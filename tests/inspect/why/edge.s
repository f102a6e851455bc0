! The first block's fuel has to last for the loop's, which is 4 + 23 * 1000 where its counter is 1000.
.services exit
.function main,leaf,0,0,30000
.fuel 4
    mov 1000,%o1
.block loop
.cell %o1,1,1000,0
.fuel 4
.term %o1,23
    deccc %o1
    bne loop
    nop
.block done
.fuel 4
    mov 0,%o0
    ta 0
