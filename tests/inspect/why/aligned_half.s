! V8: a half word at any byte of a range.
.services exit
.data
    .word 1,2
.text
.function main,leaf,0,0,40
.fuel 40
    mov 0,%o0
.block read
.cell %o0,0,4,0
.fuel 20
    sethi 512,%o1
    lduh [%o1+%o0],%o0
    mov 0,%o0
    ta 0
