! Puts out what comes in with its lower-case letters made upper case, up to 100,000 bytes. It doesn't look whether
! more would come, and exits with 0 either way: lower.s is a filter that tells.
!
! A leaf may use globals and outs: %o1 counts the bytes that are still allowed. Each test of %o0 makes its range narrower,
! and the block after the test lists the range that is left.

.services exit,get,put
.function main,leaf,0,0,2300006
.fuel 2300006
    set 100000,%o1      ! two words: it doesn't fit in 13 bits

! A round is 23 turns at most: 8 here, 3 and 3 in the tests, 1 to change the letter, 8 to put it out. The fuel of each
! block of the round is that of the block before it, less the words of that block.
.block loop
.cell %o1,1,100000,0
.fuel 4
.term %o1,23
    ta 1
    cmp %o0,-1
    be done
    nop

.block small_or_more
.cell %o0,0,255,0
.cell %o1,1,100000,0
.fuel -4
.term %o1,23
    cmp %o0,97          ! a
    bl put
    nop

.block small_or_less
.cell %o0,97,255,0
.cell %o1,1,100000,0
.fuel -7
.term %o1,23
    cmp %o0,122         ! z
    bg put
    nop

.block small
.cell %o0,97,122,0
.cell %o1,1,100000,0
.fuel -10
.term %o1,23
    sub %o0,32,%o0

.block put
.cell %o0,0,255,0
.cell %o1,1,100000,0
.fuel -11
.term %o1,23
    ta 2
    deccc %o1
    bne loop
    nop

.block done
.fuel 4
    mov 0,%o0
    ta 0
