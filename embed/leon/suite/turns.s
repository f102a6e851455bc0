! Does one turn of user code, from a whole state to what comes of it:
!
!   void suite_turn(struct suite_state *state, uint32_t table);
!
! The state (main.c) is written over by that of the trap that follows the turn. `table` is the context table as the MMU
! takes it; its tables map the 16 MB of this text to themselves for the supervisor. The system's MMU is off.
    .equ  PSR, 0
    .equ  WIM, 4
    .equ  Y, 8
    .equ  TBR, 12
    .equ  GLOBALS, 16
    .equ  WINDOWS, 48
    .section .text
    .align 4
    .global suite_turn
suite_turn:
    save  %sp, -96, %sp
    call  geyserpan_leon_alone              ! enter.s
     nop
    set   kept, %l7
    rd    %wim, %l1
    rd    %tbr, %l2
    std   %g2, [%l7]
    std   %g4, [%l7 + 8]
    std   %g6, [%l7 + 16]
    std   %l0, [%l7 + 24]                   ! PSR and WIM
    st    %l2, [%l7 + 32]
    st    %i0, [%l7 + 36]                   ! the state
    st    %sp, [%l7 + 40]
    st    %fp, [%l7 + 44]
    st    %i7, [%l7 + 48]
    set   traps_of_turns, %l1
    wr    %l1, %g0, %tbr
    wr    %g0, 0, %wim
    nop; nop; nop
    mov   0x100, %l1                        ! the context table, and the context 0
    sta   %i1, [%l1] 0x19
    mov   0x200, %l1
    sta   %g0, [%l1] 0x19
    mov   1, %l1
    sta   %l1, [%g0] 0x19                   ! the MMU goes on
    nop; nop; nop; nop
    sta   %g0, [%g0] 0x18                   ! flushes the TLB and the caches
    nop; nop; nop; nop
    sta   %g0, [%g0] 0x11
    sta   %g0, [%g0] 0x10
    nop; nop; nop; nop
    ! the registers of each window
    mov   %i0, %g1
    add   %i0, WINDOWS, %g3
    rd    %asr17, %g2
    and   %g2, 31, %g2
    mov   0, %g4
3:  or    %g4, 0xF80, %g5                   ! supervisor, traps disabled
    wr    %g5, %g0, %psr
    nop; nop; nop
    ldd   [%g3], %o0
    ldd   [%g3 + 8], %o2
    ldd   [%g3 + 16], %o4
    ldd   [%g3 + 24], %o6
    ldd   [%g3 + 32], %l0
    ldd   [%g3 + 40], %l2
    ldd   [%g3 + 48], %l4
    ldd   [%g3 + 56], %l6
    add   %g3, 64, %g3
    subcc %g2, %g4, %g0
    bne   3b
     add  %g4, 1, %g4
    ! the window below the turn's, whose %l1 and %l2 are its PC and nPC
    ld    [%g1 + WIM], %g2
    wr    %g2, %g0, %wim
    ld    [%g1 + Y], %g2
    wr    %g2, %g0, %y
    ld    [%g1 + PSR], %g2
    wr    %g2, %g0, %psr
    nop; nop; nop
    ldd   [%g1 + GLOBALS + 8], %g2
    ldd   [%g1 + GLOBALS + 16], %g4
    ldd   [%g1 + GLOBALS + 24], %g6
    ld    [%g1 + GLOBALS + 4], %g1
    jmpl  %l1, %g0
    rett  %l2

! A trap leads here, in the window below that of the turn's end. %l0 has PSR, %l3 TBR, %l1 and %l2 PC and nPC.
caught:
    set   kept, %l4
    ld    [%l4 + 36], %l4
    st    %l0, [%l4 + PSR]
    st    %l3, [%l4 + TBR]
    rd    %wim, %l0
    st    %l0, [%l4 + WIM]
    rd    %y, %l0
    st    %l0, [%l4 + Y]
    st    %g1, [%l4 + GLOBALS + 4]
    std   %g2, [%l4 + GLOBALS + 8]
    std   %g4, [%l4 + GLOBALS + 16]
    std   %g6, [%l4 + GLOBALS + 24]
    add   %l4, WINDOWS, %g3
    rd    %asr17, %g2
    and   %g2, 31, %g2
    mov   0, %g4
4:  or    %g4, 0xF80, %g5
    wr    %g5, %g0, %psr
    nop; nop; nop
    std   %o0, [%g3]
    std   %o2, [%g3 + 8]
    std   %o4, [%g3 + 16]
    std   %o6, [%g3 + 24]
    std   %l0, [%g3 + 32]
    std   %l2, [%g3 + 40]
    std   %l4, [%g3 + 48]
    std   %l6, [%g3 + 56]
    add   %g3, 64, %g3
    subcc %g2, %g4, %g0
    bne   4b
     add  %g4, 1, %g4
    sta   %g0, [%g0] 0x19                   ! the MMU goes off
    nop; nop; nop; nop
    sta   %g0, [%g0] 0x18
    nop; nop; nop; nop
    sta   %g0, [%g0] 0x11
    sta   %g0, [%g0] 0x10
    nop; nop; nop; nop
    set   kept, %g1
    ld    [%g1 + 24], %g4                   ! PSR: the window, and traps disabled until the registers are there
    or    %g4, 0xF00, %g5
    andn  %g5, 0x20, %g5
    wr    %g5, %g0, %psr
    nop; nop; nop
    ldd   [%g1 + 24], %l0
    wr    %l1, %g0, %wim
    ld    [%g1 + 32], %l1
    wr    %l1, %g0, %tbr
    nop; nop; nop
    ld    [%g1 + 40], %sp
    ld    [%g1 + 44], %fp
    ld    [%g1 + 48], %i7
    ldd   [%g1], %g2
    ldd   [%g1 + 8], %g4
    ldd   [%g1 + 16], %g6
    andn  %l0, 0x20, %l1                    ! the system's interrupt level first, and then its traps
    wr    %l1, %g0, %psr
    nop; nop; nop
    wr    %l0, %g0, %psr
    nop; nop; nop
    ret
     restore

    .align 4096
traps_of_turns:
    .rept 256
    rd    %psr, %l0
    ba    caught
     rd   %tbr, %l3
    nop
    .endr

    .section .bss
    .align 8
kept:
    .skip 56
