! V2: a word that flushes the code.
.services exit
.function main,leaf,0,0,40
.fuel 40
    flush %g0
    mov 0,%o0
    ta 0
