.function f,leaf,0,0,1
sll %o0,32,%o0
