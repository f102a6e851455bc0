! Copies 64 KiB by double words, without an end.

.services exit
.data
    .skip 131072
.text

.function loop,leaf,0,0,0
    sethi 512,%o0       ! 00080000
    sethi 576,%o1       ! 00090000
    sethi 64,%g3        ! 65,536
next:
    subcc %g3,8,%g3
    ldd [%o0+%g3],%o4
    bne next
    std %o4,[%o1+%g3]
    ba loop
    nop
