.function f,leaf,0,1
