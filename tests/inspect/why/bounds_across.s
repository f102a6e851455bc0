! V9: an index from the last word of a region to the first of the next one: the access has to lie in one of them.
.services exit
.region rw
    .skip 4096
.region ro
    .word 3,4
.text
.function main,leaf,0,0,40
.fuel 40
    mov 4092,%o0
.block read
.cell %o0,4092,4096,2
.fuel 20
    sethi 512,%o1
    ld [%o1+%o0],%o0
    mov 0,%o0
    ta 0
