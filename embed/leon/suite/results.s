! Runs one instruction: void suite_run(struct suite_result *result). %o0 and %o1 are its operands, %o2 its result.
    .section .text
    .align 4
    .global suite_run
suite_run:
    save  %sp, -96, %sp
    set   slot, %l0
    ld    [%i0], %l1
    st    %l1, [%l0]
    sta   %g0, [%g0] 0x11                   ! flushes the data cache, then the instruction cache
    sta   %g0, [%g0] 0x10
    nop; nop; nop; nop
    ld    [%i0 + 16], %l2
    wr    %l2, %g0, %y
    ld    [%i0 + 12], %l3                   ! the codes, as PSR has them
    rd    %psr, %l4
    set   0x00F00000, %l5
    andn  %l4, %l5, %l4
    or    %l4, %l3, %l4
    wr    %l4, %g0, %psr
    nop; nop; nop
    ld    [%i0 + 4], %o0
    ld    [%i0 + 8], %o1
    nop
slot:
    nop
    rd    %psr, %l4
    rd    %y, %l2
    and   %l4, %l5, %l4
    st    %o2, [%i0 + 20]
    st    %l4, [%i0 + 24]
    st    %l2, [%i0 + 28]
    ret
     restore
