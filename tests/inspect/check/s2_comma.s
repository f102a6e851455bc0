.function f,leaf,0,0,1
mov 1 %o0
