! Calls of a known depth. main calls outer, outer calls inner, and inner calls a leaf; each of the three adds 1 to the character
! 0, and main puts out what came of it.
!
! `.depth` says how many frames calls push at one time: the function's own, and those of what it calls. A leaf pushes none, so
! that inner needs 1, outer 2 and main 3. On two windows more than the first function has, five here, no window is stored.

.services exit,put

.function main,framed,96,288,147
.depth 3
.fuel 147
    save %sp,-96,%sp
    mov 48,%o0          ! the character 0
    call outer
    nop
    ta 2
    mov 0,%o0
    ta 0

.function outer,framed,96,192,110
.depth 2
.param 0,252,0
.result 3,255,0
.fuel 110
    save %sp,-96,%sp
    mov %i0,%o0
    call inner
    nop
    ret
    restore %o0,1,%o0

.function inner,framed,96,96,56
.depth 1
.param 0,252,0
.result 2,254,0
.fuel 56
    save %sp,-96,%sp
    mov %i0,%o0
    call one_more
    nop
    ret
    restore %o0,1,%o0

! Where some function has a depth, one without the line has 0.
.function one_more,leaf,0,0,2
.param 0,252,0
.result 1,253,0
.fuel 2
    retl
    add %o0,1,%o0
