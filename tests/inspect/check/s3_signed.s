.function f,leaf,0,0,1
mov -4097,%o0
