.function f,leaf,0,0,1
nop
.region rw
.skip 262144
.region rw
.skip 1
