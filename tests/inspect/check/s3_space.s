.function f,leaf,0,0,1
lda [%o0] 256,%o1
