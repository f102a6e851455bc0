! V13: a leaf's block lists a cell for a local, which the leaf can't write.
.services exit
.function main,leaf,0,0,60
.fuel 60
    mov 0,%o0
    ta 0
.block last
.cell %l0,0,9,0
.fuel 20
    mov 0,%o0
    ta 0
