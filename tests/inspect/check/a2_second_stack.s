.stack 1
 .stack 2
.function f,leaf,0,0,1
nop
