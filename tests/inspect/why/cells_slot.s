! V13: a leaf's block lists a word of the frame, which a leaf hasn't.
.services exit
.function main,leaf,0,0,60
.fuel 60
    mov 0,%o0
    ta 0
.block last
.cell slot 0,0,9,0
.fuel 20
    mov 0,%o0
    ta 0
