.function f,leaf,0,0,1
nop
.data
.word 4294967296
