	.file	"wc.c"
	.section	".text"
.Ltext0:
	.cfi_sections	.debug_frame
	.file 0 "." "wc.c"
	.section	.text.startup,"ax",@progbits
	.align 4
	.global main
	.type	main, #function
	.proc	04
main:
.LFB14:
	.file 1 "wc.c"
	.loc 1 8 16
	.cfi_startproc
	save	%sp, -112, %sp
	.cfi_window_save
	.cfi_register 15, 31
	.cfi_def_cfa_register 30
.LBB24:
.LBB25:
	.file 2 "runtime/plug.h"
	.loc 2 24 5
#APP
! 24 "runtime/plug.h" 1
	ta 1
! 0 "" 2
#NO_APP
.LBE25:
.LBE24:
	.loc 1 11 24
	cmp	%o0, 0
	bl	.L17
	 nop
	.loc 1 10 9
	mov	0, %g1
	.loc 1 9 36
	mov	0, %i3
	.loc 1 9 25
	mov	0, %i2
	.loc 1 9 14
	mov	0, %i1
	b,a	.L7
.L3:
	.loc 1 14 12
	cmp	%o0, 32
	be	.L18
	 nop
	cmp	%o0, 10
	bg	.L5
	 nop
	cmp	%o0, 8
	bg	.L19
	 nop
.L6:
	.loc 1 15 17
	cmp	%g1, 0
	bne	.L4
	 nop
	.loc 1 15 38 discriminator 1
	add	%i2, 1, %i2
	.loc 1 15 28 discriminator 1
	mov	1, %g1
.L4:
.LBB28:
.LBB26:
	.loc 2 24 5
#APP
! 24 "runtime/plug.h" 1
	ta 1
! 0 "" 2
#NO_APP
.LBE26:
.LBE28:
	.loc 1 11 24
	cmp	%o0, 0
	bl	.L2
	 nop
.L7:
	.loc 1 12 14
	add	%i3, 1, %i3
	.loc 1 13 12
	cmp	%o0, 10
	bne	.L3
	 nop
	.loc 1 13 29 discriminator 1
	add	%i1, 1, %i1
.L19:
	.loc 1 14 65
	mov	0, %g1
.LBB29:
.LBB27:
	.loc 2 24 5
#APP
! 24 "runtime/plug.h" 1
	ta 1
! 0 "" 2
#NO_APP
.LBE27:
.LBE29:
	.loc 1 11 24
	cmp	%o0, 0
	bge	.L7
	 nop
.L2:
.LBB30:
.LBB31:
	.loc 1 4 9
	mov	0, %i5
.L8:
	.loc 1 5 32
	wr	%g0, 0, %y
	nop
	nop
	nop
	udiv	%i1, 10, %i0
	sll	%i0, 2, %g1
	add	%g1, %i0, %g1
	add	%g1, %g1, %g1
	sub	%i1, %g1, %g1
	.loc 1 5 28
	add	%g1, 48, %g1
	mov	%g1, %o0
	.loc 1 5 22
	add	%fp, %i5, %i4
	add	%i5, 1, %i5
	stb	%g1, [%i4-16]
	mov	%i1, %g1
	.loc 1 5 40
	mov	%i0, %i1
	.loc 1 5 56
	cmp	%g1, 9
	bgu	.L8
	 nop
	.loc 1 6 19
	add	%i5, -1, %i4
	sll	%o0, 24, %o0
	sra	%o0, 24, %o0
.LBB32:
.LBB33:
	.loc 2 31 5
#APP
! 31 "runtime/plug.h" 1
	ta 2
! 0 "" 2
#NO_APP
.LBE33:
.LBE32:
	.loc 1 6 14
	cmp	%i4, 0
	be	.L9
	 nop
.L26:
	.loc 1 6 29
	add	%fp, %i5, %i5
	ldub	[%i5-18], %o0
	.loc 1 6 19
	mov	%i4, %i5
	add	%i5, -1, %i4
	sll	%o0, 24, %o0
	sra	%o0, 24, %o0
.LBB35:
.LBB34:
	.loc 2 31 5
#APP
! 31 "runtime/plug.h" 1
	ta 2
! 0 "" 2
#NO_APP
.LBE34:
.LBE35:
	.loc 1 6 14
	cmp	%i4, 0
	bne	.L26
	 nop
.L9:
.LBE31:
.LBE30:
.LBB36:
.LBB37:
	.loc 2 30 18
	mov	32, %o0
	.loc 2 31 5
#APP
! 31 "runtime/plug.h" 1
	ta 2
! 0 "" 2
#NO_APP
.L11:
.LBE37:
.LBE36:
.LBB38:
.LBB39:
	.loc 1 5 32
	wr	%g0, 0, %y
	nop
	nop
	nop
	udiv	%i2, 10, %i1
	sll	%i1, 2, %g1
	add	%g1, %i1, %g1
	add	%g1, %g1, %g1
	sub	%i2, %g1, %g1
	.loc 1 5 28
	add	%g1, 48, %g1
	mov	%g1, %o0
	.loc 1 5 22
	add	%fp, %i4, %i5
	add	%i4, 1, %i4
	stb	%g1, [%i5-16]
	mov	%i2, %g1
	.loc 1 5 40
	mov	%i1, %i2
	.loc 1 5 56
	cmp	%g1, 9
	bgu	.L11
	 nop
	.loc 1 6 19
	add	%i4, -1, %i5
	sll	%o0, 24, %o0
	sra	%o0, 24, %o0
.LBB40:
.LBB41:
	.loc 2 31 5
#APP
! 31 "runtime/plug.h" 1
	ta 2
! 0 "" 2
#NO_APP
.LBE41:
.LBE40:
	.loc 1 6 14
	cmp	%i5, 0
	be	.L12
	 nop
.L27:
	.loc 1 6 29
	add	%fp, %i4, %i4
	ldub	[%i4-18], %o0
	.loc 1 6 19
	mov	%i5, %i4
	add	%i4, -1, %i5
	sll	%o0, 24, %o0
	sra	%o0, 24, %o0
.LBB43:
.LBB42:
	.loc 2 31 5
#APP
! 31 "runtime/plug.h" 1
	ta 2
! 0 "" 2
#NO_APP
.LBE42:
.LBE43:
	.loc 1 6 14
	cmp	%i5, 0
	bne	.L27
	 nop
.L12:
.LBE39:
.LBE38:
.LBB44:
.LBB45:
	.loc 2 30 18
	mov	32, %o0
	.loc 2 31 5
#APP
! 31 "runtime/plug.h" 1
	ta 2
! 0 "" 2
#NO_APP
.L14:
.LBE45:
.LBE44:
.LBB46:
.LBB47:
	.loc 1 5 32
	wr	%g0, 0, %y
	nop
	nop
	nop
	udiv	%i3, 10, %i2
	sll	%i2, 2, %g1
	add	%g1, %i2, %g1
	add	%g1, %g1, %g1
	sub	%i3, %g1, %g1
	.loc 1 5 28
	add	%g1, 48, %g1
	mov	%g1, %o0
	.loc 1 5 22
	add	%fp, %i5, %i4
	add	%i5, 1, %i5
	stb	%g1, [%i4-16]
	mov	%i3, %g1
	.loc 1 5 40
	mov	%i2, %i3
	.loc 1 5 56
	cmp	%g1, 9
	bgu	.L14
	 nop
	.loc 1 6 19
	add	%i5, -1, %g1
	sll	%o0, 24, %o0
	sra	%o0, 24, %o0
.LBB48:
.LBB49:
	.loc 2 31 5
#APP
! 31 "runtime/plug.h" 1
	ta 2
! 0 "" 2
#NO_APP
.LBE49:
.LBE48:
	.loc 1 6 14
	cmp	%g1, 0
	be	.L15
	 nop
.L28:
	.loc 1 6 29
	add	%fp, %i5, %i5
	ldub	[%i5-18], %o0
	.loc 1 6 19
	mov	%g1, %i5
	add	%i5, -1, %g1
	sll	%o0, 24, %o0
	sra	%o0, 24, %o0
.LBB51:
.LBB50:
	.loc 2 31 5
#APP
! 31 "runtime/plug.h" 1
	ta 2
! 0 "" 2
#NO_APP
.LBE50:
.LBE51:
	.loc 1 6 14
	cmp	%g1, 0
	bne	.L28
	 nop
.L15:
.LBE47:
.LBE46:
.LBB52:
.LBB53:
	.loc 2 30 18
	mov	10, %o0
	.loc 2 31 5
#APP
! 31 "runtime/plug.h" 1
	ta 2
! 0 "" 2
#NO_APP
.LBE53:
.LBE52:
	.loc 1 21 1
	mov	0, %i0
	restore
	jmp	%o7+8
	 nop
.L5:
	cmp	%o0, 13
	bne	.L6
	 nop
	.loc 1 14 12
	mov	0, %g1
	b,a	.L4
.L18:
	.loc 1 14 65
	mov	0, %g1
	b,a	.L4
.L17:
	.loc 1 9 36
	mov	0, %i3
	.loc 1 9 25
	mov	0, %i2
	.loc 1 9 14
	mov	0, %i1
	b,a	.L2
	.cfi_endproc
.LFE14:
	.size	main, .-main
	.section	".text"
.Letext0:
