! Multiplies and divides, without an end.

.services exit
.function loop,leaf,0,0,0
    mov 13,%o1
again:
    umul %o1,1013,%o1
    rd %y,%o3
    add %o1,%o3,%o1
    srl %o1,16,%o4
    or %o4,1,%o4
    wr %g0,0,%y
    udiv %o1,%o4,%o5
    sra %o1,31,%o3
    wr %o3,0,%y
    sdiv %o1,%o4,%o3
    smul %o3,%o4,%o3
    sub %o1,%o3,%o3
    add %o1,%o3,%o1
    addcc %g3,-1,%g3
    bne again
    nop
    ba loop
    nop
