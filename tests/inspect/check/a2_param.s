.function f,leaf,0,0,1
.param 1,2
nop
