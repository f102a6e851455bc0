! The least system for the example: traps, window handlers and a stack, with the MMU off. A real system has its own.
    .section .start, "ax"
    .global start
start:
    wr    %g0, 0xFC0, %psr                  ! supervisor, traps disabled, window 0, no interrupt but 15
    nop; nop; nop
    wr    %g0, 2, %wim
    set   traps, %g1
    wr    %g1, %g0, %tbr
    nop; nop; nop
    set   stack, %sp
    mov   0, %fp
    wr    %g0, 0xFE0, %psr                  ! traps enabled
    nop; nop; nop
    call  main
     sub  %sp, 96, %sp
    ta    0                                 ! `traps` has no handler of it: the processor halts
     nop

! window overflow: the window below the one that the trap left is stored, and WIM's bit moves to it
overflow:
    mov   %wim, %l3
    mov   %g1, %l7
    srl   %l3, 1, %g1
    rd    %asr17, %l4
    and   %l4, 31, %l4
    sll   %l3, %l4, %l4
    or    %l4, %g1, %g1
    save
    wr    %g1, %g0, %wim
    nop; nop; nop
    std   %l0, [%sp]
    std   %l2, [%sp + 8]
    std   %l4, [%sp + 16]
    std   %l6, [%sp + 24]
    std   %i0, [%sp + 32]
    std   %i2, [%sp + 40]
    std   %i4, [%sp + 48]
    std   %i6, [%sp + 56]
    restore
    mov   %l7, %g1
    jmpl  %l1, %g0
    rett  %l2

! window underflow: WIM's bit moves to the next window, and the one that it stood at is loaded
underflow:
    mov   %wim, %l3
    sll   %l3, 1, %l4
    rd    %asr17, %l5
    and   %l5, 31, %l5
    srl   %l3, %l5, %l5
    or    %l5, %l4, %l5
    wr    %l5, %g0, %wim
    nop; nop; nop
    restore
    restore
    ldd   [%sp], %l0
    ldd   [%sp + 8], %l2
    ldd   [%sp + 16], %l4
    ldd   [%sp + 24], %l6
    ldd   [%sp + 32], %i0
    ldd   [%sp + 40], %i2
    ldd   [%sp + 48], %i4
    ldd   [%sp + 56], %i6
    save
    save
    jmpl  %l1, %g0
    rett  %l2

    .macro HALTS times
    .rept \times
    ta    0
    nop; nop; nop
    .endr
    .endm
    .align 4096
traps:
    HALTS 5
    ba    overflow
     nop
    nop; nop
    ba    underflow
     nop
    nop; nop
    HALTS 249

    .section .bss
    .align 8
    .skip 65536
stack:
