! Gets a byte and puts one, without an end.

.services exit
.function loop,leaf,0,0,0
    ta 1
    ta 2
    addcc %g3,-1,%g3
    bne loop
    nop
    ba loop
    nop
