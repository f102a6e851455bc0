.stack 17
.function f,leaf,0,0,1
nop
