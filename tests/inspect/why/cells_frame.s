! V13: a cell for the first word behind the frame, whose words are slots 0 to 7.
.services exit
.function main,framed,96,96,60
.fuel 60
    save %sp,-96,%sp
    mov 0,%o0
    ta 0
.block last
.cell slot 8,0,9,0
.fuel 20
    mov 0,%o0
    ta 0
