! V9: LDSTUB writes the byte that it reads, and these data may be read alone.
.services exit
.region ro
    .word 1,2
.text
.function main,leaf,0,0,40
.fuel 40
    sethi 512,%o1
    ldstub [%o1],%o0
    mov 0,%o0
    ta 0
