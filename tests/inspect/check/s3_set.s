.function f,leaf,0,0,1
set 4294967296,%o0
