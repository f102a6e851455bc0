! V9: the word before the data.
.services exit
.data
    .word 1,2
.text
.function main,leaf,0,0,40
.fuel 40
    sethi 512,%o1
    ld [%o1-4],%o0
    mov 0,%o0
    ta 0
