! V4: a branch to another function.
.services exit
.function main,framed,96,96,200
.fuel 200
    save %sp,-96,%sp
    ba f
    nop
.block end
.fuel 9
    mov 0,%o0
    ta 0
.function f,leaf,0,0,2
.fuel 2
    retl
    nop
