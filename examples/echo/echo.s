! Puts out what comes in, up to 1,000 bytes. It doesn't look whether more would come, and exits with 0 either way: lower.s is a
! filter that tells.
!
! Here the annotations say more than in hello.s: the verifier looks at one block at a time, and what it may take for
! granted where a block begins has to be written there.

.services exit,get,put

! A framed function has a register window and a frame of its own: 96 bytes, of which 64 belong to the window handlers.
! It calls nobody, so that it takes as much stack as its frame has. 16,030 turns suffice for 1,000 bytes, as the fuel of
! its blocks shows.
.function main,framed,96,96,16030
.fuel 16030
    save %sp,-96,%sp    ! 25 turns: at worst a handler makes room for the window
    mov 1000,%l0        ! so many bytes are left

! A block begins with the cells that it lists: %l0 lies from 1 to 1,000, as a signed word that is a multiple of 2^0. All
! else is unknown here. Each way to this block has to keep that.
.block loop
.cell %l0,1,1000,0
! Fuel that falls from round to round: 16 times %l0, and 4.
.fuel 4
.term %l0,16
    ta 1                ! service 1 gets a byte, or -1 at the end of the input: 5 turns
    cmp %o0,-1
    be done             ! where %o0 isn't -1 it lies from 0 to 255
    nop                 ! the instruction behind a branch runs on either way

.block body
.cell %o0,0,255,0
.cell %l0,1,1000,0
.fuel -4
.term %l0,16
    ta 2
    deccc %l0           ! one less, and the condition codes compare it with 0
    bne loop            ! where it isn't 0 it lies from 1 to 999
    nop

.block done
.fuel 4
    mov 0,%o0
    ta 0
