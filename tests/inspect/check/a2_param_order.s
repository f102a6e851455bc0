.function f,leaf,0,0,1
.param 2,1,0
nop
