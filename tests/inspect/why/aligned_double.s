! V8: a double word at a multiple of 4.
.services exit
.data
    .word 1,2,3,4
.text
.function main,leaf,0,0,40
.fuel 40
    sethi 512,%o1
    ldd [%o1+4],%o2
    mov 0,%o0
    ta 0
