.function f,leaf,0,0,1
.cell %o0,0,1,0
.cell %g1,0,1,0
nop
