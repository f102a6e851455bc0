.function f,leaf,0,0,1
add %o0,1,o1
