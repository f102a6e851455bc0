! V13: a cell for the way back.
.services exit
.function main,framed,96,96,60
.fuel 60
    save %sp,-96,%sp
    mov 0,%o0
    ta 0
.block last
.cell %i7,0,9,0
.fuel 20
    mov 0,%o0
    ta 0
