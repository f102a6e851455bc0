! V3: a trap in the slot of a branch.
.services exit,put
.function main,leaf,0,0,40
.fuel 40
    mov 0,%o0
    ba end
    ta 2
.block end
.fuel 9
    mov 0,%o0
    ta 0
