! Calls twelve functions deep, which windows are spilled and filled for, without an end.

.services exit
.function loop,leaf,0,0,0
    mov 12,%o0
    call down
    nop
    addcc %g3,-1,%g3
    bne loop
    nop
    ba loop
    nop
down:
    save %sp,-96,%sp
    subcc %i0,1,%o0
    be up
    nop
    call down
    nop
up: ret
    restore
