.function f,leaf,0,0,1
.cell slot 1008,0,1,0
nop
