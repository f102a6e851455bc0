! V18: the entry function has a parameter, which nobody gives it.
.services exit
.function main,leaf,0,0,40
.param 0,9,0
.fuel 40
    mov 0,%o0
    ta 0
