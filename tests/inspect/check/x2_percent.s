.function f,leaf,0,0,1
mov % g1,%o0
