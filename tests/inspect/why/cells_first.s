! V13: a function's first block lists a cell.
.services exit
.function main,leaf,0,0,40
.cell %o1,0,9,0
.fuel 40
    mov 0,%o0
    ta 0
