! V10: the divisor is a byte of the input, or -1, and so may be 0.
.services exit,get
.function main,leaf,0,0,12
.fuel 12
    ta 1
    wr %g0,0,%y
    mov 100,%o1
    udiv %o1,%o0,%o0
    ta 0
