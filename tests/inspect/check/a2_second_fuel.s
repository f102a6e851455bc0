.function f,leaf,0,0,1
.fuel 1
.fuel 2
nop
