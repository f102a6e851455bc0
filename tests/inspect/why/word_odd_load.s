! V2: a double word that is loaded into an odd register.
.services exit
.function main,leaf,0,0,40
.fuel 40
    ldd [%g1],%o1
    mov 0,%o0
    ta 0
