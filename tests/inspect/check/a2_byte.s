.function f,leaf,0,0,1
nop
.data
.byte 0,256
