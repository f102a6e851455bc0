! V11: neither operand of a tagged operation is a multiple of 4.
.services exit
.function main,leaf,0,0,9
.fuel 9
    mov 1,%o1
    mov 2,%o2
    taddcctv %o1,%o2,%o0
    mov 0,%o0
    ta 0
