! A branch that knows of %o0 on each of its ways: where it isn't taken, 0 to 255, and the block there wants 100 at most.
.services exit,get
.function main,leaf,0,0,60
.fuel 60
    ta 1
    cmp %o0,0
    bl ended
    nop
.block more
.cell %o0,0,100,0
.fuel 4
    mov 0,%o0
    ta 0
.block ended
.cell %o0,-1,-1,0
.fuel 4
    mov 0,%o0
    ta 0
