! The services of an image whose UART leads to a host. The APB page with the UART, at F0011000 for the supervisor
! alone, has its data at +100 (hexadecimal) and its status at +104: bit 0 says that a byte came, bit 1 that all went
! out, bit 2 that one may go. A page of RAM at F0010000 keeps locals from +32 on.
!
! What goes out, where 10 is the escape (hexadecimal):
!   10 10                 the byte 10
!   10 01                 a byte of input is asked for
!   10 00 and four bytes  exit with this word
!   10 02 and 12 bytes    a trap's TBR, PC and nPC
!   any other byte        one of the output
! The host answers each 10 01 with a byte, with 10 10, which is the byte 10, or with 10 04, the end of the input. No
! byte comes that wasn't asked for.
!
! Each routine runs in the trap's window with traps disabled, and leaves every register as the sandbox machine's vectors
! do (mail.s).
    .macro CALL7 routine
    sethi %hi(\routine), %l6
    jmpl  %l6 + %lo(\routine), %l7
    .endm
    .section .services, "ax"                ! the vectors of 80, 81 and 82
    .global exit_vector
exit_vector:
    sethi %hi(APB), %l4
    ba    exit
     mov  0, %l5
    nop
    .global get_vector
get_vector:
    sethi %hi(MAIL), %l3
    ba    get
     std  %l0, [%l3 + 48]
    nop
    .global put_vector
put_vector:
    sethi %hi(MAIL), %l3
    ba    put
     std  %l0, [%l3 + 48]
    nop
    .section .other, "ax"                   ! the vector of every other type but 05 and 06: the type is in TBR
    rd    %tbr, %l0
    sethi %hi(stop), %l4
    jmpl  %l4 + %lo(stop), %g0
     sethi %hi(APB), %l4

    .section .routines, "ax"
! puts %l5's low byte out: a call by %l7, in whose slot it may be set; %l6 is lost
send:
    ld    [%l4 + 0x104], %l6
    andcc %l6, 4, %g0
    be    send
     nop
    jmpl  %l7 + 8, %g0
     st   %l5, [%l4 + 0x100]
! gives the next byte in %i0
take:
    ld    [%l4 + 0x104], %l6
    andcc %l6, 1, %g0
    be    take
     nop
    ld    [%l4 + 0x100], %i0
    jmpl  %l7 + 8, %g0
     and  %i0, 0xFF, %i0
! puts %i0 out as four bytes; %l0 is lost
word:
    mov   %l7, %l0
    CALL7 send
     srl  %i0, 24, %l5
    CALL7 send
     srl  %i0, 16, %l5
    CALL7 send
     srl  %i0, 8, %l5
    CALL7 send
     mov  %i0, %l5
    jmpl  %l0 + 8, %g0
     nop
get:
    std   %l4, [%l3 + 32]
    std   %l6, [%l3 + 40]
    rd    %psr, %l0
    sethi %hi(APB), %l4
    CALL7 send
     mov  0x10, %l5
    CALL7 send
     mov  1, %l5
    CALL7 take
     nop
    subcc %i0, 0x10, %g0
    bne   back
     nop
    CALL7 take
     nop
    subcc %i0, 4, %g0
    be,a  back
     mov  -1, %i0
back:
    wr    %l0, %psr                         ! the image's codes
    nop; nop; nop
    ldd   [%l3 + 32], %l4
    ldd   [%l3 + 40], %l6
    ldd   [%l3 + 48], %l0
    .global leave
leave:
    jmpl  %l2, %g0
    rett  %l2 + 4
put:
    std   %l4, [%l3 + 32]
    std   %l6, [%l3 + 40]
    rd    %psr, %l0
    sethi %hi(APB), %l4
    and   %i0, 0xFF, %l5
    subcc %l5, 0x10, %g0
    bne   plain
     nop
    CALL7 send
     nop
plain:
    CALL7 send
     nop
    ba    back
     nop
    .global stop
stop:
    mov   %l0, %i0
    mov   2, %l5
exit:
    mov   %l5, %l3
    CALL7 send
     mov  0x10, %l5
    CALL7 send
     mov  %l3, %l5
    CALL7 word
     nop
    subcc %l3, 2, %g0
    bne   halt
     nop
    mov   %l1, %i0
    CALL7 word
     nop
    mov   %l2, %i0
    CALL7 word
     nop
halt:
    ld    [%l4 + 0x104], %l6                ! until the last byte went out
    andcc %l6, 2, %g0
    be    halt
     nop
    ta    0                                 ! traps are disabled: the processor halts
     nop
