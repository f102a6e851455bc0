.function f,leaf,0,0,1
nop
.data
.region rw
.skip 8
