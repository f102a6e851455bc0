! V13: the remainder of a division by 10 isn't shown to be below 10; `and` with 15 leaves it as it is.
.services exit,get
.function main,leaf,0,0,60
.fuel 60
    ta 1
    and %o0,255,%o0
    mov 0,%y
    udiv %o0,10,%o1
    umul %o1,10,%o1
    sub %o0,%o1,%o0
.block digit
.cell %o0,0,9,0
.fuel 4
    mov 0,%o0
    ta 0
