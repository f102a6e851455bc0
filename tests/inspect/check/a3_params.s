.function f,leaf,0,0,1
.param 0,1,0
.param 0,1,0
.param 0,1,0
.param 0,1,0
.param 0,1,0
.param 0,1,0
.param 0,1,0
nop
