! The budget is a turn less than the first block's fuel, which suffices.
.services exit
.function main,leaf,0,0,3
.fuel 4
    mov 0,%o0
    ta 0
