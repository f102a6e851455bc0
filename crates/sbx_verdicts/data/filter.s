! A filter: it reads three bytes and puts each one more out. `verify` accepts it, since its fuel suffices.

.services exit,get,put
.function main,leaf,0,0,37
.fuel 37
    ta 1                    ! gets a byte: 5 turns
    inc %o0                 ! 1 turn
    ta 2                    ! puts it: 5 turns
    ta 1
    inc %o0
    ta 2
    ta 1
    inc %o0
    ta 2
    mov 0,%o0               ! 1 turn
    ta 0                    ! 3 turns
