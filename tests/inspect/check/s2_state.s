.function f,leaf,0,0,1
rd %o1,%o0
