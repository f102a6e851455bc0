! Gets bytes and takes them into a CRC by a table in the data, without an end. The table's words are zeros: what they are costs no turn.

.services exit,get
.data
    .skip 1024
.text

.function loop,leaf,0,0,0
    sethi 512,%o5       ! 00080000
again:
    ta 1
    xor %o2,%o0,%o1
    and %o1,255,%o1
    sll %o1,2,%o1
    ld [%o5+%o1],%o1
    srl %o2,8,%o2
    addcc %g3,-1,%g3
    bne again
    xor %o2,%o1,%o2
    ba loop
    nop
