! Loads and stores a word of the page after the one that shares its line of the translation cache with the code, without an
! end.

.services exit
.region rw
    .skip 8
.region rw
    .skip 8
.text

.function loop,leaf,0,0,0
    sethi 516,%o0       ! 00081000, the second region
again:
    ld [%o0+0],%o1
    add %o1,1,%o1
    st %o1,[%o0+0]
    addcc %g3,-1,%g3
    bne again
    nop
    ba loop
    nop
