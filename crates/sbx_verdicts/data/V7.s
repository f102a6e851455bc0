! V7: a leaf writes a local. It has no window of its own: the locals are its caller's.
.services exit
.function main,leaf,0,0,5
.fuel 5
    mov 1,%l0
    mov 0,%o0
    ta 0
