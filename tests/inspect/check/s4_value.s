.function f,leaf,0,0,1
nop
.data
.word 1,g+4
