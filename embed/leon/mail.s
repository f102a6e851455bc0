! The services of an image whose input and output lie in RAM. The mailbox page, at F0010000 for the supervisor alone,
! has
!   +0 where the next byte of input is, +4 where the input ends, +8 where the next byte of output goes, +12 where the
!   room ends,
!   +16 0 while the image runs, 1 exit, 2 trapped, 3 no room for output,
!   +20 the exit word, or TBR, +24 PC and +28 nPC of the trap,
!   +32 room for four locals.
! Each routine runs in the trap's window with traps disabled. It leaves every register as the sandbox machine's vectors
! do: %l3 is F0010000, %i0 the byte of `get`, all else as it was. The condition codes are kept by PSR.
    .section .services, "ax"                ! the vectors of 80, 81 and 82
    .global exit_vector
exit_vector:
    sethi %hi(MAIL), %l3
    ba    exit
     mov  1, %l7
    nop
    .global get_vector
get_vector:
    sethi %hi(MAIL), %l3
    ba    get
     std  %l4, [%l3 + 32]
    nop
    .global put_vector
put_vector:
    sethi %hi(MAIL), %l3
    ba    put
     std  %l4, [%l3 + 32]
    nop
    .section .other, "ax"                   ! the vector of every other type but 05 and 06: the type is in TBR
    rd    %tbr, %l0
    sethi %hi(stop), %l4
    jmpl  %l4 + %lo(stop), %g0
     sethi %hi(MAIL), %l3

    .section .routines, "ax"
get:
    std   %l6, [%l3 + 40]
    rd    %psr, %l6
    ld    [%l3], %l4
    ld    [%l3 + 4], %l5
    subcc %l4, %l5, %g0
    be    back                              ! the input has ended: FFFFFFFF
     mov  -1, %i0
    ldub  [%l4], %i0
    add   %l4, 1, %l4
    st    %l4, [%l3]
back:
    wr    %l6, %psr                         ! the image's codes
    nop; nop; nop
    ldd   [%l3 + 32], %l4
    ldd   [%l3 + 40], %l6
    .global leave
leave:
    jmpl  %l2, %g0
    rett  %l2 + 4
put:
    std   %l6, [%l3 + 40]
    rd    %psr, %l6
    ld    [%l3 + 8], %l4
    ld    [%l3 + 12], %l5
    subcc %l4, %l5, %g0
    be    exit                              ! no room: the run ends, as by a host's bound of output
     mov  3, %l7
    stb   %i0, [%l4]
    add   %l4, 1, %l4
    ba    back
     st   %l4, [%l3 + 8]
    .global stop
stop:
    mov   %l0, %i0
    mov   2, %l7
exit:
    st    %i0, [%l3 + 20]
    st    %l1, [%l3 + 24]
    st    %l2, [%l3 + 28]
    st    %l7, [%l3 + 16]
    ta    0                                 ! traps are disabled: the processor halts, and a monitor has the board
     nop
