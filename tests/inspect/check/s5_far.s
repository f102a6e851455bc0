.function f,leaf,0,0,1
ba,a 0x840000
