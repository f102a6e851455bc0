! Puts out the digits from 9 down to 0, and a line's end: a small loop that counts.
!
! %o0 holds the digit as a character: 48 is 0, 57 is 9.
!
! A block's fuel has to last for its own words and for the block after it, whichever way is taken. Where a register counts
! the rounds that are left, the fuel falls with it: here 10 turns a round.

.services exit,put
.function main,leaf,0,0,109
.fuel 109
    mov 57,%o0          ! the digit 9

! In the last round the digit is 0, that is 48: 8 turns here and 10 in the last block. Each digit above has a round of 10
! before that. So 10 times (%o0 - 48), and 18: 10 times %o0, less 462.
.block loop
.cell %o0,48,57,0
.fuel -462
.term %o0,10
    ta 2
    cmp %o0,48
    be done
    nop

! Where %o0 isn't 48 it lies from 49 to 57, and one less lies from 48 to 56: in the cell of the loop.
.block next
.cell %o0,49,57,0
.fuel -470
.term %o0,10
    ba loop
    dec %o0

.block done
.fuel 10
    mov 10,%o0          ! the line's end
    ta 2
    mov 0,%o0
    ta 0
