.function 5,leaf,0,0,1
