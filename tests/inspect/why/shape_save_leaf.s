! V3: a leaf that begins with SAVE.
.services exit
.function main,leaf,0,96,90
.fuel 90
    save %sp,-96,%sp
    mov 0,%o0
    ta 0
