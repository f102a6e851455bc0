! V9: a store to data that may be read alone.
.services exit
.region ro
    .word 1,2
.text
.function main,leaf,0,0,40
.fuel 40
    sethi 512,%o1
    st %g0,[%o1+4]
    mov 0,%o0
    ta 0
