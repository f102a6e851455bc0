! V11: the sum of two multiples of 4 may be no word.
.services exit
.function main,leaf,0,0,9
.fuel 9
    set 2147483644,%o1
    taddcctv %o1,4,%o0
    mov 0,%o0
    ta 0
