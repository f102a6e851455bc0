.function f,leaf,0,0,1
.depth 257
nop
