! V4: a branch to a function's first block, where its parameters are to be found. A loop needs a block of its own.
.services exit
.function main,leaf,0,0,5
.fuel 5
    mov 0,%o0
    ba main
    nop
