.function f,leaf,0,0,1
.term %g1,1
.term %g2,1
.term %g3,1
.term %g4,1
.term %g5,1
.term %g6,1
.term %g7,1
.term %o0,1
.term %o1,1
nop
