! V6: a branch behind a call asks for codes that were set before the call.
.services exit
.function main,framed,96,96,200
.fuel 200
    save %sp,-96,%sp
    cmp %g0,0
    call f
    nop
    be done
    nop
.block done
.fuel 9
    mov 0,%o0
    ta 0
.function f,leaf,0,0,2
.fuel 2
    retl
    nop
