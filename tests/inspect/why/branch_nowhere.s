! V4: a branch out of the code.
.services exit
.function main,leaf,0,0,40
.fuel 40
    mov 0,%o0
    ba .+4000
    nop
.block end
.fuel 9
    mov 0,%o0
    ta 0
