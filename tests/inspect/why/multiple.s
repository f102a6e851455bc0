! The cell wants a multiple of 4, and 6 is one of 2: its ends alone would do.
.services exit,get
.function main,leaf,0,0,60
.fuel 60
    ta 1
    mov 6,%o1
.block last
.cell %o1,0,9,2
.fuel 20
    mov 0,%o0
    ta 0
