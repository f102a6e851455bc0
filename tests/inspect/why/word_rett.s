! V2: the return from a trap.
.services exit
.function main,leaf,0,0,40
.fuel 40
    rett %l2
    mov 0,%o0
    ta 0
