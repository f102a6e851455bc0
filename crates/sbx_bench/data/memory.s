! Loads and stores a word of the page that shares its line of the translation cache with the code, without an end.

.services exit
.data
    .skip 8
.text

.function loop,leaf,0,0,0
    sethi 512,%o0       ! 00080000
again:
    ld [%o0+0],%o1
    add %o1,1,%o1
    st %o1,[%o0+0]
    addcc %g3,-1,%g3
    bne again
    nop
    ba loop
    nop
