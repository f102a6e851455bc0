.function f,leaf,0,0,1
add %o0,[%o1],%o2
