! V11: a tagged operation that traps asks for multiples of 4, and 1 is none.
.services exit
.function main,leaf,0,0,6
.fuel 6
    mov 4,%o1
    taddcctv %o1,1,%o0
    mov 0,%o0
    ta 0
