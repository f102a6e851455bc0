! Puts out "Hi".
!
! A line is an instruction, a directive or an annotation; what stands behind an exclamation mark is a comment.
! Directives and annotations begin with a dot. `sandbox asm hello.s hello.img` makes the image, and
! `sandbox run hello.img` verifies and runs it.

! What the program may ask of its host: putting out a byte, and the end of the run. Another service would be refused.
.services exit,put

! The first function is where a run begins. Behind its name stand
!   leaf  it has no register window of its own and calls nobody;
!   0     bytes of its frame, none for a leaf;
!   0     bytes of stack that it and whom it calls take;
!   16    its budget: it ends within so many turns, whatever its input is. The verifier checks that.
.function main,leaf,0,0,16

! The function's first block begins with it. Fuel is what is left of the budget where the block begins. The words weigh
! 1 + 5, 1 + 5 and 1 + 3: a service has the turns of its handler in its weight.
.fuel 16
    mov 72,%o0          ! the letter H
    ta 2                ! service 2 puts out the low byte of %o0
    mov 105,%o0         ! the letter i
    ta 2
    mov 0,%o0           ! the exit word: with 0 the status of `sandbox run` is 0, else 1
    ta 0                ! service 0 ends the run
