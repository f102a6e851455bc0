! V8: a word's address is a multiple of 4, and nothing shows it of this one, which is one byte after the data's beginning.
.services exit
.data
    .word 1,2
.text
.function main,leaf,0,0,6
.fuel 6
    sethi 512,%o1       ! 00080000
    ld [%o1+1],%o0
    mov 0,%o0
    ta 0
