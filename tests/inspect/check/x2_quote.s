.function f,leaf,0,0,1
add %o0,'0',%o0
