! Enters an image on a LEON3 from a system of one's own, and comes back when it has ended: what geyserpan_leon.c calls.
!
!   void geyserpan_leon_enter(volatile uint32_t *kept);
!
! `kept` lies in the image's megabyte and has
!   +0 the stub's context table, and +4 the image's, as the MMU takes them,
!   +8 the address of the words of the way out,
!   +16 room for PSR, WIM, TBR, Y, the MMU's control, context table and context,
!   +48 room for %g2 to %g7, %sp, %fp and %i7: 84 bytes in all.
! The stub's tables map to themselves, for the supervisor, the 16 MB of the image and those of this text. With these the
! MMU is on while the processor changes hands, as in boot.s. Where tables and context change both, it is off.
    .section .text
    .align 4

! Puts the other windows on the system's stack, by its handlers of window overflow and underflow, and disables traps. It
! has no window of its own: it leaves PSR as it was in %l0 of the caller's, and writes %l1, %g1 and the codes.
    .global geyserpan_leon_alone
geyserpan_leon_alone:
    rd    %asr17, %g1                       ! windows less 1
    and   %g1, 31, %g1
1:  save  %sp, -96, %sp
    subcc %g1, 1, %g1
    bne   1b
     nop
    rd    %asr17, %g1
    and   %g1, 31, %g1
2:  restore
    subcc %g1, 1, %g1
    bne   2b
     nop
    rd    %psr, %l0
    or    %l0, 0xF00, %l1                   ! no interrupt but 15
    wr    %l1, %g0, %psr
    nop; nop; nop
    andn  %l1, 0x20, %l1                    ! traps disabled
    wr    %l1, %g0, %psr
    nop; nop; nop
    retl
     nop

    .global geyserpan_leon_enter
geyserpan_leon_enter:
    save  %sp, -96, %sp
    call  geyserpan_leon_alone
     nop
    rd    %wim, %l1
    rd    %tbr, %l2
    rd    %y, %l3
    mov   0x100, %l4
    mov   0x200, %l5
    std   %g2, [%i0 + 48]
    std   %g4, [%i0 + 56]
    std   %g6, [%i0 + 64]
    st    %sp, [%i0 + 72]
    st    %fp, [%i0 + 76]
    st    %i7, [%i0 + 80]
    st    %l0, [%i0 + 16]
    st    %l1, [%i0 + 20]
    st    %l2, [%i0 + 24]
    st    %l3, [%i0 + 28]
    lda   [%g0] 0x19, %l0                   ! the MMU's control, context table and context
    lda   [%l4] 0x19, %l1
    lda   [%l5] 0x19, %l2
    st    %l0, [%i0 + 32]
    st    %l1, [%i0 + 36]
    st    %l2, [%i0 + 40]
    mov   %i0, %g2
    mov   0x100, %g4
    mov   0x200, %g5
    rd    %asr17, %g1
    and   %g1, 31, %g1
    or    %g1, 0xF80, %g1                   ! supervisor, traps disabled, the highest window: RETT comes to window 0
    wr    %g1, %g0, %psr
    nop; nop; nop
    wr    %g0, 2, %wim
    set   0xF0000000, %g1
    wr    %g1, %g0, %tbr
    nop; nop; nop
    sta   %g0, [%g0] 0x19                   ! the MMU goes off: this text lies where it is mapped
    nop; nop; nop; nop
    ld    [%g2], %g1
    sta   %g1, [%g4] 0x19                   ! and on, with the stub's tables
    sta   %g0, [%g5] 0x19
    mov   1, %g1
    sta   %g1, [%g0] 0x19
    nop; nop; nop; nop
    sta   %g0, [%g0] 0x18                   ! flushes the TLB and the caches, which go by virtual addresses
    nop; nop; nop; nop
    sta   %g0, [%g0] 0x11
    sta   %g0, [%g0] 0x10
    nop; nop; nop; nop
    set   0x00040000, %l2                   ! PC of the image
    set   0x000FFFC0, %fp                   ! %sp of window 0
    ld    [%g2 + 8], %l0                    ! jmpl %l2; rett %l2+4
    ld    [%g2 + 4], %l1
    jmpl  %l0, %g0
     sta  %l1, [%g4] 0x19                   ! the image's tables

! These words lie in the mailbox's page, at F0010040, and the end of the services' routines leads to them. %l3 is
! F0010000. The page is the same in the stub's tables.
    .global geyserpan_leon_return, geyserpan_leon_return_end
geyserpan_leon_return:
    ld    [%l3 + 48], %l4                   ! the place of what is kept
    ld    [%l3 + 52], %l5                   ! the stub's tables
    ld    [%l3 + 56], %l6                   ! geyserpan_leon_back
    mov   0x100, %l7
    sta   %l5, [%l7] 0x19
    nop; nop; nop; nop
    sta   %g0, [%g0] 0x18
    nop; nop; nop; nop
    jmpl  %l6, %g0
     nop
geyserpan_leon_return_end:

    .global geyserpan_leon_back
geyserpan_leon_back:                        ! %l4: the place of what is kept
    mov   %l4, %g1
    mov   0x100, %g4
    mov   0x200, %g5
    ld    [%g1 + 36], %g2                   ! the system's tables, and its MMU on or off
    ld    [%g1 + 40], %g3
    ld    [%g1 + 32], %g6
    sta   %g0, [%g0] 0x19
    nop; nop; nop; nop
    sta   %g2, [%g4] 0x19
    sta   %g3, [%g5] 0x19
    sta   %g6, [%g0] 0x19
    nop; nop; nop; nop
    sta   %g0, [%g0] 0x18
    nop; nop; nop; nop
    sta   %g0, [%g0] 0x11                   ! what the image wrote is read at other addresses here
    sta   %g0, [%g0] 0x10
    nop; nop; nop; nop
    ld    [%g1 + 16], %g4                   ! PSR: the window, and traps disabled until the registers are there
    or    %g4, 0xF00, %g5
    andn  %g5, 0x20, %g5
    wr    %g5, %g0, %psr
    nop; nop; nop
    ld    [%g1 + 16], %l0
    ld    [%g1 + 20], %l1
    wr    %l1, %g0, %wim
    ld    [%g1 + 24], %l1
    wr    %l1, %g0, %tbr
    ld    [%g1 + 28], %l1
    wr    %l1, %g0, %y
    nop; nop; nop
    ld    [%g1 + 72], %sp
    ld    [%g1 + 76], %fp
    ld    [%g1 + 80], %i7
    ldd   [%g1 + 48], %g2
    ldd   [%g1 + 56], %g4
    ldd   [%g1 + 64], %g6
    andn  %l0, 0x20, %l1                    ! the system's interrupt level first, and then its traps
    wr    %l1, %g0, %psr
    nop; nop; nop
    wr    %l0, %g0, %psr
    nop; nop; nop
    ret
     restore
