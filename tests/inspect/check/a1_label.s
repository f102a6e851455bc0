.function f,leaf,0,0,1
f: nop
