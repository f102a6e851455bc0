! V13 at the slot of a branch that annuls: where the branch isn't taken, the word doesn't run.
.services exit,get
.function main,leaf,0,0,60
.fuel 60
    ta 1
    cmp %o0,3
    bne,a done
    mov 300,%o0
.block same
.fuel 4
    mov 0,%o0
    ta 0
.block done
.cell %o0,0,255,0
.fuel 4
    mov 0,%o0
    ta 0
