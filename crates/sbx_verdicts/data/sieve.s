! Puts out 256 characters, one for each number from 0 on: # where it is prime, a dot where it isn't, by Eratosthenes.
!
! Two loops, one in the other. The inner one goes on by %o1, which is 2 or more, so a round of 5 turns is paid by 3 for
! each number that it passes. It begins with 4 or more and its last round is at 255 or less, so a round of the outer one
! weighs at most 763: 3 times 251, 5 for that last round, and 5 for the outer one's own words.

.services exit,put
.data
marks:                  ! 1 where a number is known not to be prime
    .byte 1,1
    .skip 254
.text

.function main,leaf,0,0,14281
.fuel 14281
    mov 2,%o1
    set marks,%o3
    mov 1,%o4

! For each %o1 from 2 to 15: its multiples from its square on are marked. Smaller ones have a smaller divisor.
.block numbers
.cell %o1,2,15,0
.cell %o3,0x80000,0x80000,3
.cell %o4,1,1,0
.fuel 15803
.term %o1,-763
    umul %o1,%o1,%o2

.block multiples
.cell %o1,2,15,0
.cell %o2,4,255,0
.cell %o3,0x80000,0x80000,3
.cell %o4,1,1,0
.fuel 15814
.term %o1,-763
.term %o2,-3
    stb %o4,[%o3+%o2]
    add %o2,%o1,%o2
    cmp %o2,255
    ble multiples
    nop

.block after
.cell %o1,2,15,0
.cell %o3,0x80000,0x80000,3
.cell %o4,1,1,0
.fuel 15044
.term %o1,-763
    inc %o1
    cmp %o1,15
    ble numbers
    nop

! A mark is 0 where the number is prime. What %o0 holds is put out in the block `prime`, on either way.
.block show_all
.cell %o3,0x80000,0x80000,3
.fuel 3595
    mov 0,%o2

.block show
.cell %o2,0,255,0
.cell %o3,0x80000,0x80000,3
.fuel 3594
.term %o2,-14
    ldub [%o3+%o2],%o0
    tst %o0
    be prime
    mov 35,%o0          ! # in the slot: it runs on either way
.block not_prime
.cell %o2,0,255,0
.cell %o3,0x80000,0x80000,3
.fuel 3590
.term %o2,-14
    mov 46,%o0

.block prime
.cell %o0,35,46,0
.cell %o2,0,255,0
.cell %o3,0x80000,0x80000,3
.fuel 3589
.term %o2,-14
    ta 2
    inc %o2
    cmp %o2,255
    ble show
    nop

.block done
.fuel 10
    mov 10,%o0
    ta 2
    mov 0,%o0
    ta 0
