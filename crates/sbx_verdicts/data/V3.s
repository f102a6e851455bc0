! V3: a word after the end of the run in the same block. Nothing comes to it, and a reader should not think so.
.services exit
.function main,leaf,0,0,5
.fuel 5
    mov 0,%o0
    ta 0
    nop
