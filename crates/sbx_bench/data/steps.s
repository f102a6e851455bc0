! Multiplies two words by 32 steps and one that shifts, without an end.

.services exit
.function loop,leaf,0,0,0
    mov 1013,%o1
again:
    wr %g3,0,%y
    andcc %g0,0,%o2
    mulscc %o2,%o1,%o2
    mulscc %o2,%o1,%o2
    mulscc %o2,%o1,%o2
    mulscc %o2,%o1,%o2
    mulscc %o2,%o1,%o2
    mulscc %o2,%o1,%o2
    mulscc %o2,%o1,%o2
    mulscc %o2,%o1,%o2
    mulscc %o2,%o1,%o2
    mulscc %o2,%o1,%o2
    mulscc %o2,%o1,%o2
    mulscc %o2,%o1,%o2
    mulscc %o2,%o1,%o2
    mulscc %o2,%o1,%o2
    mulscc %o2,%o1,%o2
    mulscc %o2,%o1,%o2
    mulscc %o2,%o1,%o2
    mulscc %o2,%o1,%o2
    mulscc %o2,%o1,%o2
    mulscc %o2,%o1,%o2
    mulscc %o2,%o1,%o2
    mulscc %o2,%o1,%o2
    mulscc %o2,%o1,%o2
    mulscc %o2,%o1,%o2
    mulscc %o2,%o1,%o2
    mulscc %o2,%o1,%o2
    mulscc %o2,%o1,%o2
    mulscc %o2,%o1,%o2
    mulscc %o2,%o1,%o2
    mulscc %o2,%o1,%o2
    mulscc %o2,%o1,%o2
    mulscc %o2,%o1,%o2
    mulscc %o2,%g0,%o2
    rd %y,%o3
    addcc %g3,-1,%g3
    bne again
    nop
    ba loop
    nop
