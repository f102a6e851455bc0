.function f,leaf,0,0,1
.term %o0
nop
