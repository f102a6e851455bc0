! The condition codes are set, and %o2 isn't.
.services exit
.function main,leaf,0,0,60
.fuel 60
    cmp %g0,1
    addx %o2,1,%o0
    mov 0,%o0
    ta 0
