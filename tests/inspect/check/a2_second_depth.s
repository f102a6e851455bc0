.function f,leaf,0,0,1
.depth 0
.depth 0
nop
