! The boot stub of a LEON3: from reset, or from a monitor, to the first instruction of an image, in user mode. It runs
! once, at the physical addresses that it was loaded to, and is no part of what the image can reach.
!
! BOOT_TABLE is a context table of its own. Its one context maps the stub's 16 MB to themselves, and the system's pages
! as the image has them. With these the MMU goes on. The last two words are `jmpl` to the words `jmpl %l2; rett %l2+4`
! in the system's pages and, in its delay slot, the store that sets the context table to the image's. The system's
! pages are the same in both, so that it doesn't matter when the store shows. From then on no page of the stub is
! mapped.
!
! WINDOWS is how many register windows the image was made ready for. `leave` is where the words of the way out stand.
    .section .text
    .global boot
boot:
    wr   %g0, 0xF80, %psr                   ! supervisor, traps disabled, no interrupt but 15; EF and EC 0
    nop; nop; nop
    wr   %g0, 2, %wim
    set  0xF0000000, %g1
    wr   %g1, %g0, %tbr
    nop; nop; nop
    rd   %asr17, %g1                        ! windows less 1; multiplication and division (8); single vector (13)
    set  0x211F, %g2
    and  %g1, %g2, %g1
    cmp  %g1, 0x100 + WINDOWS - 1
    bne  wrong
     nop
    wr   %g0, 0xF80 + WINDOWS - 1, %psr     ! the highest window: RETT comes to window 0
    nop; nop; nop
    set  0x80000200, %g1                    ! the interrupt controller's mask: none
    st   %g0, [%g1 + 0x40]
    sta  %g0, [%g0] 0x11                    ! flushes the data cache, then the instruction cache
    sta  %g0, [%g0] 0x10
    mov  0x100, %g2
    set  BOOT_TABLE >> 4, %g1
    sta  %g1, [%g2] 0x19                    ! context table
    mov  0x200, %g3
    sta  %g0, [%g3] 0x19                    ! context 0
    mov  1, %g1
    sta  %g1, [%g0] 0x19                    ! the MMU goes on; this page is mapped to itself
    nop; nop; nop; nop
    sta  %g0, [%g0] 0x18                    ! flushes the TLB and the caches
    nop; nop; nop; nop
    lda  [%g0] 2, %g1                       ! cache control: both on, and burst fetches
    set  0x1000F, %g4
    or   %g1, %g4, %g1
    sta  %g1, [%g0] 2
    nop; nop; nop
    set  0x00040000, %l2                    ! PC of the image
    set  0x000FFFC0, %fp                    ! %sp of window 0
    set  leave, %l0                         ! jmpl %l2; rett %l2+4
    set  CONTEXT_TABLE >> 4, %l1
    jmpl %l0, %g0
     sta %l1, [%g2] 0x19
wrong:
    ta   0                                  ! error mode: another processor than the image was made ready for
     nop
