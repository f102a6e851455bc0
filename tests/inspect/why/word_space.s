! V2: a load from an alternate space.
.services exit
.function main,leaf,0,0,40
.fuel 40
    lda [%g1]10,%o0
    mov 0,%o0
    ta 0
