! V13: what get gives may be no byte, or 0, and the block begins with 1 at least, so that no mask helps.
.services exit,get
.function main,leaf,0,0,60
.fuel 60
    ta 1
.block some
.cell %o0,1,255,0
.fuel 4
    mov 0,%o0
    ta 0
