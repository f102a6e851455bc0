! Calls a function with a frame and one without, in the windows that there are, without an end.

.services exit
.function loop,leaf,0,0,0
    call framed
    nop
    call plain
    nop
    addcc %g3,-1,%g3
    bne loop
    nop
    ba loop
    nop
framed:
    save %sp,-96,%sp
    add %i0,1,%l0
    ret
    restore %l0,1,%o0
plain:
    retl
    add %o0,1,%o0
