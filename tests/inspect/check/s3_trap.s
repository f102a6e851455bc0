.function f,leaf,0,0,1
ta 0x80
