! 13 times 11 by MULScc: 32 steps, and one that shifts alone.
! It declares no fuel, so it is for `trace`: `verify` refuses it by V14 at 00040094, its last word. Behind `.fuel 40` it is accepted.

.services exit
.function main,leaf,0,0,60
    mov 13,%y               ! the multiplier: its lowest bit is looked at in each step
    mov 11,%o2              ! the multiplicand
    andcc %g0,%g0,%o4       ! the partial product is 0, and so are N and V
    mulscc %o4,%o2,%o4
    mulscc %o4,%o2,%o4
    mulscc %o4,%o2,%o4
    mulscc %o4,%o2,%o4
    mulscc %o4,%o2,%o4
    mulscc %o4,%o2,%o4
    mulscc %o4,%o2,%o4
    mulscc %o4,%o2,%o4
    mulscc %o4,%o2,%o4
    mulscc %o4,%o2,%o4
    mulscc %o4,%o2,%o4
    mulscc %o4,%o2,%o4
    mulscc %o4,%o2,%o4
    mulscc %o4,%o2,%o4
    mulscc %o4,%o2,%o4
    mulscc %o4,%o2,%o4
    mulscc %o4,%o2,%o4
    mulscc %o4,%o2,%o4
    mulscc %o4,%o2,%o4
    mulscc %o4,%o2,%o4
    mulscc %o4,%o2,%o4
    mulscc %o4,%o2,%o4
    mulscc %o4,%o2,%o4
    mulscc %o4,%o2,%o4
    mulscc %o4,%o2,%o4
    mulscc %o4,%o2,%o4
    mulscc %o4,%o2,%o4
    mulscc %o4,%o2,%o4
    mulscc %o4,%o2,%o4
    mulscc %o4,%o2,%o4
    mulscc %o4,%o2,%o4
    mulscc %o4,%o2,%o4
    mulscc %o4,%g0,%o4      ! the last step adds nothing, and shifts once more
    mov %y,%o0              ! the product's low word; its high word is in %o4
    ta 0
