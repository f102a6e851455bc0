! V2: a jump to where a register says.
.services exit
.function main,leaf,0,0,40
.fuel 40
    jmp %g1
    nop
    mov 0,%o0
    ta 0
