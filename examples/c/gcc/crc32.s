	.file	"crc32.c"
	.section	".text"
.Ltext0:
	.cfi_sections	.debug_frame
	.file 0 "." "crc32.c"
	.section	.rodata.str1.8,"aMS",@progbits,1
	.align 8
.LC0:
	.asciz	"0123456789ABCDEF"
	.section	.text.startup,"ax",@progbits
	.align 4
	.global main
	.type	main, #function
	.proc	04
main:
.LFB14:
	.file 1 "crc32.c"
	.loc 1 10 16
	.cfi_startproc
	save	%sp, -96, %sp
	.cfi_window_save
	.cfi_register 15, 31
	.cfi_def_cfa_register 30
.LBB14:
.LBB15:
	.loc 1 4 19
	mov	0, %i3
	sethi	%hi(table), %i1
	or	%i1, %lo(table), %i1
.LBB16:
.LBB17:
	.loc 1 6 72
	sethi	%hi(-306675712), %i2
	or	%i2, 800, %i2
.L2:
.LBE17:
.LBE16:
.LBE15:
.LBE14:
	.loc 1 10 16
	mov	%i3, %g1
.LBB21:
.LBB20:
.LBB19:
.LBB18:
	.loc 1 6 18
	mov	0, %i4
.L4:
	.loc 1 6 43
	and	%g1, 1, %i5
	.loc 1 6 72
	cmp	%i5, 0
	srl	%g1, 1, %g1
	be	.L3
	 nop
	xor	%g1, %i2, %g1
.L3:
	.loc 1 6 33
	add	%i4, 1, %i4
	.loc 1 6 27
	cmp	%i4, 8
	bne	.L4
	 nop
.LBE18:
	.loc 1 7 18
	sll	%i3, 2, %i5
	st	%g1, [%i1+%i5]
.LBE19:
	.loc 1 4 36
	add	%i3, 1, %i3
	.loc 1 4 28
	cmp	%i3, 256
	bne	.L2
	 nop
.LBE20:
.LBE21:
.LBB22:
.LBB23:
	.file 2 "runtime/plug.h"
	.loc 2 24 5
#APP
! 24 "runtime/plug.h" 1
	ta 1
! 0 "" 2
#NO_APP
.LBE23:
.LBE22:
	.loc 1 14 24
	cmp	%o0, -1
	be	.L9
	 nop
	.loc 1 11 14
	mov	-1, %i5
.L7:
	.loc 1 15 26
	xor	%o0, %i5, %g1
	.loc 1 15 31
	and	%g1, 255, %g1
	.loc 1 15 20
	sll	%g1, 2, %g1
	ld	[%i1+%g1], %g1
	.loc 1 15 45
	srl	%i5, 8, %i5
	.loc 1 15 13
	xor	%g1, %i5, %i5
.LBB25:
.LBB24:
	.loc 2 24 5
#APP
! 24 "runtime/plug.h" 1
	ta 1
! 0 "" 2
#NO_APP
.LBE24:
.LBE25:
	.loc 1 14 24
	cmp	%o0, -1
	bne	.L7
	 nop
.L6:
	.loc 1 17 9
	xnor	%g0, %i5, %i5
.LBB26:
	.loc 1 18 14
	mov	28, %g1
	sethi	%hi(.LC0), %i3
	or	%i3, %lo(.LC0), %i3
.L8:
	.loc 1 18 66 discriminator 3
	srl	%i5, %g1, %i4
	.loc 1 18 72 discriminator 3
	and	%i4, 15, %i4
	.loc 1 18 38 discriminator 3
	ldsb	[%i3+%i4], %o0
.LBB27:
.LBB28:
	.loc 2 31 5 discriminator 3
#APP
! 31 "runtime/plug.h" 1
	ta 2
! 0 "" 2
#NO_APP
.LBE28:
.LBE27:
	.loc 1 18 24 discriminator 3
	addcc	%g1, -4, %g1
	bpos	.L8
	 nop
.LBE26:
.LBB29:
.LBB30:
	.loc 2 30 18
	mov	10, %o0
	.loc 2 31 5
#APP
! 31 "runtime/plug.h" 1
	ta 2
! 0 "" 2
#NO_APP
.LBE30:
.LBE29:
	.loc 1 21 1
	mov	0, %i0
	restore
	jmp	%o7+8
	 nop
.L9:
	.loc 1 11 14
	mov	-1, %i5
	b,a	.L6
	.cfi_endproc
.LFE14:
	.size	main, .-main
	.local	table
	.common	table,1024,4
	.section	".text"
.Letext0:
