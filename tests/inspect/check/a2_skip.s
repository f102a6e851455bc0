.function f,leaf,0,0,1
nop
.data
.skip -1
