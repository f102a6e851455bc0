.function f,leaf,0,0,1
.result 0,2147483648,0
nop
