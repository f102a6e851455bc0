.function f,leaf,0,0,1
nop
.data
.align 16
