.function f,leaf,0,0,1
.param 0,4,4
nop
