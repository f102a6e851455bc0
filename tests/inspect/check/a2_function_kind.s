.function f,frame,0,0,1
