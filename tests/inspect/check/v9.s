! V9: the data has 8 bytes, and the third word isn't among them.
.services exit
.data
    .word 1,2
.text
.function main,leaf,0,0,6
.fuel 6
    sethi 512,%o1       ! 00080000
    ld [%o1+8],%o0
    mov 0,%o0
    ta 0
