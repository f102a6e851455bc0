! V3: a leaf that calls.
.services exit
.function main,leaf,0,0,40
.fuel 40
    call f
    nop
    mov 0,%o0
    ta 0
.function f,leaf,0,0,2
.fuel 2
    retl
    nop
