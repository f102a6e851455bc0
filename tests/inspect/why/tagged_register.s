! V11: of a tagged operation on two registers the first one is no multiple of 4.
.services exit
.function main,leaf,0,0,9
.fuel 9
    mov 6,%o1
    mov 4,%o2
    tsubcctv %o1,%o2,%o0
    mov 0,%o0
    ta 0
