! V3: a word of the same block behind the slot of a branch.
.services exit
.function main,leaf,0,0,40
.fuel 40
    ba end
    nop
    nop
.block end
.fuel 9
    mov 0,%o0
    ta 0
