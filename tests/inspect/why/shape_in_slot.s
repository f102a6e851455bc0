! V3: a branch in the slot of a branch.
.services exit
.function main,leaf,0,0,40
.fuel 40
    ba end
    ba end
.block end
.fuel 9
    mov 0,%o0
    ta 0
