.function f,leaf,0,0,1
.byte 72,"i"
