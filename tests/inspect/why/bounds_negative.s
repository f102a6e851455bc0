! V9: an address below 0.
.services exit
.function main,leaf,0,0,40
.fuel 40
    mov -8,%o1
    ld [%o1],%o0
    ta 0
