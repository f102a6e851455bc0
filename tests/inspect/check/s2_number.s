.function f,leaf,0,0,1
sethi %o1,%o0
