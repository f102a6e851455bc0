! Puts out the squares of 1 to 20, one a line: three functions, and values that stay while others run.
!
! A framed function begins with SAVE and has a register window of its own: its locals stay over a call, its outs don't. A
! leaf uses the outs and globals of its caller's window and calls nobody.

.services exit,put
.data
buffer:
    .skip 16
.text

! The stack room is the function's own frame and the room of whom it calls; a leaf needs none.
.function main,framed,96,96,5090
.fuel 5090
    save %sp,-96,%sp    ! 25 turns
    mov 1,%l0

! A call weighs its own word, its slot and the whole budget of the function that it calls: 2 + 3 for the square, 2 + 236
! for the number. With 6 to put out the line's end and 4 to count, a round is 253 turns.
.block loop
.cell %l0,1,20,0
.fuel 5317
.term %l0,-253
    call square
    mov %l0,%o0         ! the parameter, in the call's slot
    call decimal        ! %o0 is the square, from 1 to 400: it fits what decimal asks for
    nop
    mov 10,%o0
    ta 2
    inc %l0
    cmp %l0,20
    ble loop
    nop

.block done
.fuel 4
    mov 0,%o0
    ta 0

! The square of a number from 1 to 20.
.function square,leaf,0,0,3
.param 1,20,0
.result 1,400,0
.fuel 3
    umul %o0,%o0,%o0
    retl
    nop

! Puts out a number in decimal, without zeros before it.
.function decimal,leaf,0,0,236
.param 0,0x7fffffff,0
.fuel 236
    mov %o0,%o1
    mov 10,%o2          ! the digits go to the buffer from its tenth byte down
    set buffer,%o3

! What is stored is the low byte of a word, whatever the word is: so the digit needs no range.
.block digit
.cell %o1,0,0x7fffffff,0
.cell %o2,1,10,0
.cell %o3,0x80000,0x80000,3
.fuel 102
.term %o2,13
    wr %g0,0,%y         ! a quotient has a range only where Y is known to be 0
    udiv %o1,10,%o4
    umul %o4,10,%o5
    sub %o1,%o5,%o5
    add %o5,48,%o5
    dec %o2
    stb %o5,[%o3+%o2]
    orcc %g0,%o4,%o1
    be show
    nop

.block more
.cell %o1,0,0x7fffffff,0
.cell %o2,0,9,0
.cell %o3,0x80000,0x80000,3
.fuel 105
.term %o2,13
    tst %o2
    bne digit
    nop

.block show
.cell %o2,0,9,0
.cell %o3,0x80000,0x80000,3
.fuel 102
.term %o2,-10
    ldub [%o3+%o2],%o0
    ta 2
    inc %o2
    cmp %o2,10
    bl show
    nop

.block end
.fuel 2
    retl
    nop
