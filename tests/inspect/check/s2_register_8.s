.function f,leaf,0,0,1
add %o8,1,%o1
