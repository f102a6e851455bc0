! V11: the difference of two multiples of 4 may be no word.
.services exit
.function main,leaf,0,0,9
.fuel 9
    sethi 0x200000,%o1
    tsubcctv %o1,4,%o0
    mov 0,%o0
    ta 0
