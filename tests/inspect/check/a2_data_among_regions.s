.function f,leaf,0,0,1
nop
.region rw
.skip 8
.data
