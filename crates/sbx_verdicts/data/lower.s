! Puts out what comes in with its upper-case letters made lower case, until the input ends.
!
! Whatever an image does, its fuel has to be declared; so this one counts, too: up to 2^31 - 1 bytes, the greatest number that a
! cell can hold, which is 23 turns a byte and some 49 billion in all. It never loses a byte without a word: where the count is
! used up, it looks whether more input is there, and then it ends with the exit word 1.

.services exit,get,put
.function main,leaf,0,0,49392123895
.fuel 49392123895
    set 2147483647,%o1  ! so many bytes may come

! A round is 23 turns at most: 8 here, 3 and 3 in the tests, 1 to change the letter, 8 to put it out.
.block loop
.cell %o1,1,2147483647,0
.fuel 12
.term %o1,23
    ta 1
    cmp %o0,-1
    be ended
    nop

.block capital_or_more
.cell %o0,0,255,0
.cell %o1,1,2147483647,0
.fuel 4
.term %o1,23
    cmp %o0,65          ! A
    bl put
    nop

.block capital_or_less
.cell %o0,65,255,0
.cell %o1,1,2147483647,0
.fuel 1
.term %o1,23
    cmp %o0,90          ! Z
    bg put
    nop

.block capital
.cell %o0,65,90,0
.cell %o1,1,2147483647,0
.fuel -2
.term %o1,23
    add %o0,32,%o0

.block put
.cell %o0,0,255,0
.cell %o1,1,2147483647,0
.fuel -3
.term %o1,23
    ta 2
    deccc %o1
    bne loop
    nop

.block full
.fuel 12
    ta 1                ! is there more?
    cmp %o0,-1
    be ended
    nop

.block more
.fuel 4
    mov 1,%o0
    ta 0

.block ended
.fuel 4
    mov 0,%o0
    ta 0
