	.file	"control.c"
	.section	".text"
.Ltext0:
	.cfi_sections	.debug_frame
	.file 0 "." "control.c"
	.section	.text.startup,"ax",@progbits
	.align 4
	.global main
	.type	main, #function
	.proc	04
main:
.LFB15:
	.file 1 "control.c"
	.loc 1 13 16
	.cfi_startproc
	save	%sp, -96, %sp
	.cfi_window_save
	.cfi_register 15, 31
	.cfi_def_cfa_register 30
.LBB15:
.LBB16:
	.file 2 "runtime/plug.h"
	.loc 2 24 5
#APP
! 24 "runtime/plug.h" 1
	ta 1
! 0 "" 2
#NO_APP
.LBE16:
.LBE15:
	.loc 1 15 24
	orcc	%o0, 0, %i5
	bl	.L2
	 nop
	.loc 1 14 23
	mov	100, %i1
	.loc 1 14 9
	mov	0, %i2
	sethi	%hi(filter), %i3
	or	%i3, %lo(filter), %i3
	b,a	.L10
.L15:
.LBB19:
.LBB20:
.LBB21:
	.loc 1 12 67
	mov	2000, %i2
.L5:
.LBE21:
.LBE20:
	.loc 1 19 50
	sra	%i2, 31, %g1
	and	%g1, 31, %g1
	add	%g1, %i2, %g1
	sra	%g1, 5, %g1
	.loc 1 19 9
	add	%g1, %i4, %o0
.LBB23:
.LBB24:
	.loc 1 12 67
	cmp	%o0, 255
	ble	.L6
	 nop
.L16:
	mov	255, %o0
.LBE24:
.LBE23:
.LBB26:
.LBB27:
	.loc 2 31 5
#APP
! 31 "runtime/plug.h" 1
	ta 2
! 0 "" 2
#NO_APP
.LBE27:
.LBE26:
	.loc 1 20 12
	cmp	%i5, 255
	be	.L14
	 nop
.L8:
.LBE19:
.LBB36:
.LBB17:
	.loc 2 24 5
#APP
! 24 "runtime/plug.h" 1
	ta 1
! 0 "" 2
#NO_APP
.LBE17:
.LBE36:
	.loc 1 15 24
	orcc	%o0, 0, %i5
	bl	.L2
	 nop
.L10:
.LBB37:
.LBB29:
.LBB30:
	.loc 1 7 34
	ld	[%i3+64], %i4
	.loc 1 7 32
	sll	%i4, 2, %i0
	.loc 1 7 23
	ld	[%i3+%i0], %g1
	sub	%i5, %g1, %g1
	.loc 1 7 12
	ld	[%i3+68], %o5
	add	%g1, %o5, %g1
	st	%g1, [%i3+68]
	.loc 1 8 20
	st	%i5, [%i3+%i0]
	.loc 1 9 20
	add	%i4, 1, %i4
	.loc 1 9 25
	and	%i4, 15, %i4
	.loc 1 9 11
	st	%i4, [%i3+64]
	.loc 1 10 19
	sra	%g1, 4, %g1
.LBE30:
.LBE29:
	.loc 1 16 13
	sub	%i1, %g1, %g1
	.loc 1 17 24
	add	%g1, 2, %i0
	mov	128, %i4
	.loc 1 17 12
	cmp	%i0, 4
	bleu	.L3
	 nop
	.loc 1 18 20
	add	%i2, %g1, %i2
	.loc 1 19 31
	add	%g1, %g1, %i4
	add	%i4, %g1, %g1
	.loc 1 19 35
	sra	%g1, 31, %i4
	and	%i4, 3, %i4
	add	%i4, %g1, %i4
	sra	%i4, 2, %i4
	.loc 1 19 23
	add	%i4, 128, %i4
.L3:
.LBB31:
.LBB22:
	.loc 1 12 67
	cmp	%i2, 2000
	bg	.L15
	 nop
	cmp	%i2, -2000
	bge	.L5
	 nop
	mov	-2000, %i2
.LBE22:
.LBE31:
	.loc 1 19 50
	sra	%i2, 31, %g1
	and	%g1, 31, %g1
	add	%g1, %i2, %g1
	sra	%g1, 5, %g1
	.loc 1 19 9
	add	%g1, %i4, %o0
.LBB32:
.LBB25:
	.loc 1 12 67
	cmp	%o0, 255
	bg	.L16
	 nop
.L6:
.LBE25:
.LBE32:
.LBB33:
.LBB28:
	.loc 2 30 18
	xnor	%g0, %o0, %g1
	sra	%g1, 31, %g1
	and	%o0, %g1, %o0
	.loc 2 31 5
#APP
! 31 "runtime/plug.h" 1
	ta 2
! 0 "" 2
#NO_APP
.LBE28:
.LBE33:
	.loc 1 20 12
	cmp	%i5, 255
	bne	.L8
	 nop
.L14:
	.loc 1 20 32 discriminator 1
	add	%i1, 10, %i1
.LBB34:
.LBB35:
	.loc 1 12 67 discriminator 1
	cmp	%i1, 200
	ble	.L8
	 nop
	mov	200, %i1
.LBE35:
.LBE34:
.LBE37:
.LBB38:
.LBB18:
	.loc 2 24 5 discriminator 1
#APP
! 24 "runtime/plug.h" 1
	ta 1
! 0 "" 2
#NO_APP
.LBE18:
.LBE38:
	.loc 1 15 24 discriminator 1
	orcc	%o0, 0, %i5
	bge	.L10
	 nop
.L2:
	.loc 1 23 1
	mov	0, %i0
	restore
	jmp	%o7+8
	 nop
	.cfi_endproc
.LFE15:
	.size	main, .-main
	.local	filter
	.common	filter,72,4
	.section	".text"
.Letext0:
