! Loads and stores double words by turns, on four pages that share one line of the translation cache, without an end.

.services exit
.data
    .skip 196616
.text

.function loop,leaf,0,0,0
    sethi 512,%o0       ! 00080000
    sethi 576,%o1       ! 00090000
    sethi 640,%o2       ! 000A0000
    sethi 704,%o3       ! 000B0000
again:
    ldd [%o0+0],%o4
    std %o4,[%o1+0]
    ldd [%o2+0],%o4
    std %o4,[%o3+0]
    ldd [%o0+0],%o4
    std %o4,[%o1+0]
    ldd [%o2+0],%o4
    std %o4,[%o3+0]
    ldd [%o0+0],%o4
    std %o4,[%o1+0]
    ldd [%o2+0],%o4
    std %o4,[%o3+0]
    ldd [%o0+0],%o4
    std %o4,[%o1+0]
    ldd [%o2+0],%o4
    std %o4,[%o3+0]
    ldd [%o0+0],%o4
    std %o4,[%o1+0]
    ldd [%o2+0],%o4
    std %o4,[%o3+0]
    ldd [%o0+0],%o4
    std %o4,[%o1+0]
    ldd [%o2+0],%o4
    std %o4,[%o3+0]
    ldd [%o0+0],%o4
    std %o4,[%o1+0]
    ldd [%o2+0],%o4
    std %o4,[%o3+0]
    ldd [%o0+0],%o4
    std %o4,[%o1+0]
    ldd [%o2+0],%o4
    std %o4,[%o3+0]
    addcc %g3,-1,%g3
    bne again
    nop
    ba loop
    nop
