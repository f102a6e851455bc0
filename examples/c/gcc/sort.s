	.file	"sort.c"
	.section	".text"
.Ltext0:
	.cfi_sections	.debug_frame
	.file 0 "." "sort.c"
	.section	.text.startup,"ax",@progbits
	.align 4
	.global main
	.type	main, #function
	.proc	04
main:
.LFB16:
	.file 1 "sort.c"
	.loc 1 31 16
	.cfi_startproc
	save	%sp, -112, %sp
	.cfi_window_save
	.cfi_register 15, 31
	.cfi_def_cfa_register 30
.LBB33:
.LBB34:
	.file 2 "runtime/plug.h"
	.loc 2 24 5
#APP
! 24 "runtime/plug.h" 1
	ta 1
! 0 "" 2
#NO_APP
.LBE34:
.LBE33:
	.loc 1 33 7
	sethi	%hi(c), %i3
	st	%o0, [%i3+%lo(c)]
	.loc 1 32 9
	mov	0, %i4
.LBB35:
.LBB36:
	.loc 1 12 10
	sethi	%hi(a), %i0
	or	%i0, %lo(a), %i0
	b,a	.L4
.L5:
.LBB37:
.LBB38:
	.loc 2 24 5
#APP
! 24 "runtime/plug.h" 1
	ta 1
! 0 "" 2
#NO_APP
.LBE38:
.LBE37:
	.loc 1 8 37
	st	%o0, [%i3+%lo(c)]
.L4:
	.loc 1 8 21
	cmp	%o0, 32
	be	.L5
	 nop
	cmp	%o0, 10
	be	.L5
	 nop
	.loc 1 7 9
	mov	0, %i1
	.loc 1 9 8
	cmp	%o0, 45
	bne	.L6
	 nop
.LBB39:
.LBB40:
	.loc 2 24 5
#APP
! 24 "runtime/plug.h" 1
	ta 1
! 0 "" 2
#NO_APP
.LBE40:
.LBE39:
	.loc 1 9 32
	st	%o0, [%i3+%lo(c)]
	.loc 1 9 25
	mov	1, %i1
.L6:
	.loc 1 10 17
	add	%o0, -48, %o0
	.loc 1 10 8
	cmp	%o0, 9
	bgu	.L24
	 nop
	.loc 1 7 18
	mov	0, %i5
	or	%i3, %lo(c), %i2
.L8:
	.loc 1 11 42
	sll	%i5, 2, %g1
	add	%g1, %i5, %g1
	add	%g1, %g1, %g1
	.loc 1 11 38
	add	%o0, %g1, %i5
.LBB41:
.LBB42:
	.loc 2 24 5
#APP
! 24 "runtime/plug.h" 1
	ta 1
! 0 "" 2
#NO_APP
.LBE42:
.LBE41:
	.loc 1 11 62
	st	%o0, [%i2]
	.loc 1 11 21
	add	%o0, -48, %o0
	cmp	%o0, 9
	bleu	.L8
	 nop
	.loc 1 12 21
	cmp	%i1, 0
	be	.L9
	 nop
	sub	%g0, %i5, %i5
.L9:
	.loc 1 12 10
	mov	%i0, %i1
	sll	%i4, 2, %g1
	st	%i5, [%i0+%g1]
.LBE36:
.LBE35:
	.loc 1 34 39
	add	%i4, 1, %i4
	.loc 1 34 20
	cmp	%i4, 500
	be	.L35
	 nop
.LBB44:
.LBB43:
	.loc 1 8 14
	ld	[%i3+%lo(c)], %o0
	b,a	.L4
.L24:
.LBE43:
.LBE44:
.LBB45:
.LBB46:
	.loc 1 16 23
	cmp	%i4, 1
	ble	.L11
	 nop
	sethi	%hi(a), %i1
	or	%i1, %lo(a), %i1
.L35:
	.loc 1 16 14
	mov	1, %o4
.LBB47:
	.loc 1 18 26
	sethi	%hi(1073740800), %o5
	or	%o5, 1023, %o5
.L15:
	.loc 1 17 13
	sll	%o4, 2, %g1
	ld	[%i1+%g1], %i2
	mov	%o4, %i5
	b,a	.L12
.L14:
	.loc 1 18 46
	st	%i3, [%i1+%g1]
	.loc 1 18 22
	addcc	%i5, -1, %i5
	be	.L25
	 nop
.L12:
	.loc 1 18 26
	add	%i5, %o5, %g1
	sll	%g1, 2, %g1
	ld	[%i1+%g1], %i3
	.loc 1 18 42
	add	%g1, 4, %g1
	add	%i1, %g1, %i0
	.loc 1 18 22
	cmp	%i2, %i3
	bl	.L14
	 nop
	.loc 1 19 14
	st	%i2, [%i0]
.LBE47:
	.loc 1 16 29
	add	%o4, 1, %o4
	.loc 1 16 23
	cmp	%i4, %o4
	bg	.L15
	 nop
.L11:
.LBE46:
.LBE45:
.LBB50:
	.loc 1 36 23
	cmp	%i4, 0
	be	.L16
	 nop
	.loc 1 36 14
	mov	0, %o4
	sethi	%hi(a), %i1
	or	%i1, %lo(a), %i1
.LBB51:
.LBB52:
	.loc 1 27 23
	mov	45, %o3
.L22:
.LBE52:
.LBE51:
	.loc 1 36 33 discriminator 3
	sll	%o4, 2, %g1
	ld	[%i1+%g1], %o2
.LBB59:
.LBB57:
	.loc 1 25 39 discriminator 3
	sra	%o2, 31, %g1
	xor	%g1, %o2, %i3
	sub	%i3, %g1, %i3
.LBE57:
.LBE59:
	.loc 1 36 14 discriminator 3
	mov	0, %i5
.L18:
	mov	%i5, %i0
.LBB60:
.LBB58:
	.loc 1 26 13
	add	%i5, 1, %i5
	.loc 1 26 27
	wr	%g0, 0, %y
	nop
	nop
	nop
	udiv	%i3, 10, %i2
	sll	%i2, 2, %g1
	add	%g1, %i2, %g1
	add	%g1, %g1, %g1
	sub	%i3, %g1, %g1
	.loc 1 26 23
	add	%g1, 48, %g1
	mov	%g1, %o0
	.loc 1 26 17
	add	%fp, %i0, %o5
	stb	%g1, [%o5-16]
	mov	%i3, %g1
	.loc 1 26 35
	mov	%i2, %i3
	.loc 1 26 51
	cmp	%g1, 9
	bgu	.L18
	 nop
	.loc 1 27 8
	cmp	%o2, 0
	bge	.L21
	 nop
	.loc 1 27 23
	add	%fp, %i5, %i5
	stb	%o3, [%i5-16]
	.loc 1 27 19
	add	%i0, 2, %i5
	.loc 1 27 23
	mov	45, %o0
	b,a	.L21
.L47:
	.loc 1 28 20
	add	%fp, %i5, %i5
	ldub	[%i5-18], %o0
	.loc 1 28 15
	mov	%g1, %i5
.L21:
	add	%i5, -1, %g1
	sll	%o0, 24, %o0
	sra	%o0, 24, %o0
.LBB53:
.LBB54:
	.loc 2 31 5
#APP
! 31 "runtime/plug.h" 1
	ta 2
! 0 "" 2
#NO_APP
.LBE54:
.LBE53:
	.loc 1 28 12
	cmp	%g1, 0
	bne	.L47
	 nop
.LBB55:
.LBB56:
	.loc 2 30 18
	mov	10, %o0
	.loc 2 31 5
#APP
! 31 "runtime/plug.h" 1
	ta 2
! 0 "" 2
#NO_APP
.LBE56:
.LBE55:
.LBE58:
.LBE60:
	.loc 1 36 29
	add	%o4, 1, %o4
	.loc 1 36 23
	cmp	%o4, %i4
	bl	.L22
	 nop
.L16:
.LBE50:
	.loc 1 38 1
	mov	0, %i0
	restore
	jmp	%o7+8
	 nop
.L25:
.LBB61:
.LBB49:
.LBB48:
	mov	%i1, %i0
	.loc 1 19 14
	st	%i2, [%i0]
.LBE48:
	.loc 1 16 29
	add	%o4, 1, %o4
	.loc 1 16 23
	cmp	%i4, %o4
	bg	.L15
	 nop
	b,a	.L11
.LBE49:
.LBE61:
	.cfi_endproc
.LFE16:
	.size	main, .-main
	.local	c
	.common	c,4,4
	.local	a
	.common	a,2000,4
	.section	".text"
.Letext0:
