.function f,leaf,0,0,1
ld [%o0+4096],%o1
