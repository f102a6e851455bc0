! V20: a framed function that says its depth is 0, where another one's is told.
.services exit
.function main,framed,96,96,40
.depth 0
.fuel 40
    save %sp,-96,%sp
    mov 0,%o0
    ta 0
.function f,leaf,0,0,9
.depth 1
.fuel 9
    retl
    nop
