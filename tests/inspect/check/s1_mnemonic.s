.function f,leaf,0,0,1
 MOV 5,%o0
