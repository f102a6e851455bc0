! The term's location is no cell of the block, so that it counts nothing.
.services exit
.function main,leaf,0,0,9
.fuel 9
    mov 3,%o1
.block last
.fuel 8
.term %o1,1
    mov 0,%o0
    ta 0
