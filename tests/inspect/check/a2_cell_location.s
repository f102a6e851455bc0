.function f,leaf,0,0,1
.cell %g0,0,1,0
nop
