! The three services of the workloads on Linux, for qemu-sparc: a word to exit with, a byte of standard input or -1, and a byte
! of standard output. They use global registers and %o7 alone.
 .section .bss
 .align 8
input: .skip 65536
output: .skip 65536
next_byte: .skip 4
byte_end: .skip 4
filled: .skip 4
 .text
service1:
 set next_byte,%g1
 ld [%g1],%g2
 ld [%g1+4],%g3
 cmp %g2,%g3
 bne 1f
 nop
 mov %o1,%g2
 mov %o2,%g3
 mov 0,%o0
 set input,%o1
 set 65536,%o2
 mov 3,%g1
 ta 0x10
 mov %o1,%g4
 mov %g2,%o1
 mov %g3,%o2
 cmp %o0,0
 ble 2f
 set next_byte,%g1
 mov %g4,%g2
 add %g4,%o0,%g3
 st %g3,[%g1+4]
1: ldub [%g2],%o0
 add %g2,1,%g2
 retl
 st %g2,[%g1]
2: retl
 mov -1,%o0
service2:
 set filled,%g1
 ld [%g1],%g2
 set output,%g3
 stb %o0,[%g3+%g2]
 add %g2,1,%g2
 st %g2,[%g1]
 set 65536,%g4
 cmp %g2,%g4
 bne 3f
 mov %o7,%g6
 call flush
 nop
3: jmp %g6+8
 nop
flush:
 mov %o0,%g3
 mov %o1,%g4
 mov %o2,%g5
 mov 1,%o0
 set filled,%g2
 ld [%g2],%o2
 set output,%o1
 mov 4,%g1
 ta 0x10
 st %g0,[%g2]
 mov %g3,%o0
 mov %g4,%o1
 retl
 mov %g5,%o2
service0:
 call flush
 nop
 mov 1,%g1
 ta 0x10
