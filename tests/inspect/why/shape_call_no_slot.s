! V3: a call whose slot stands in the next block.
.services exit
.function main,framed,96,96,90
.fuel 90
    save %sp,-96,%sp
    call f
.block end
.fuel 9
    mov 0,%o0
    ta 0
.function f,leaf,0,0,9
.fuel 9
    retl
    nop
