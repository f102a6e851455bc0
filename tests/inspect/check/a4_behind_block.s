.function f,leaf,0,0,1
nop
.block b
.param 0,1,0
nop
