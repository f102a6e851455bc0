! V13: a number doesn't change, and the last block of a loop lets it be less and more than the first one does.
.services exit
.function main,leaf,0,0,60
.fuel 60
    mov 5,%o1
.block loop
.cell %o1,0,10,0
.fuel 20
    nop
.block rest
.cell %o1,-1,11,0
.fuel 10
    btst 1,%o1
    bne loop
    nop
.block done
.fuel 4
    mov 0,%o0
    ta 0
