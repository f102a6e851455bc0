! V2: a word that only traps.
.services exit
.function main,leaf,0,0,40
.fuel 40
    unimp 7
    mov 0,%o0
    ta 0
