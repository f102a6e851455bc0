! Adds, shifts and exclusive ors, without an end.

.services exit
.function loop,leaf,0,0,0
    add %o1,%g3,%o1
    sll %o1,3,%o3
    xor %o1,%o3,%o1
    addcc %g3,-1,%g3
    bne loop
    nop
    ba loop
    nop
