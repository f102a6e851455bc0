! V2: a double word that is stored from an odd register.
.services exit
.function main,leaf,0,0,40
.fuel 40
    std %o1,[%g1]
    mov 0,%o0
    ta 0
