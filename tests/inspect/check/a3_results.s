.function f,leaf,0,0,1
.result 0,1,0
.result 0,1,0
.result 0,1,0
.result 0,1,0
.result 0,1,0
.result 0,1,0
.result 0,1,0
nop
