! V7: %o7 is written.
.services exit
.function main,leaf,0,0,40
.fuel 40
    mov 1,%o7
    mov 0,%o0
    ta 0
