! V4: a branch into the middle of a block.
.services exit
.function main,leaf,0,0,40
.fuel 40
    mov 0,%o0
    ba inside
    nop
.block end
.cell %o0,0,0,0
.fuel 9
    nop
inside:
    ta 0
