! V9: an index by a byte of the input, with two regions.
.services exit,get
.region rw
    .word 1,2
.region ro
    .word 3,4
.text
.function main,leaf,0,0,40
.fuel 40
    ta 1
    sethi 512,%o1
    ldub [%o1+%o0],%o0
    mov 0,%o0
    ta 0
