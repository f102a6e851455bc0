! given 61626364 puts 212427, status 0
! What the round before left is given to a function; by clang -O1.
	.text
	.file	"lastarg.c"
	.globl	main
	.p2align	2
	.type	main,@function
main:
	save %sp, -96, %sp
	!APP
	ta 1
	!NO_APP
	cmp %o0, 0
	bl	.LBB0_5
	nop
	mov	%g0, %i0
	ba .LBB0_2
	nop
.LBB0_4:
	!APP
	ta 1
	!NO_APP
	cmp %o0, -1
	add %i0, -1, %i0
	mov	%i1, %i2
	ble	.LBB0_5
	nop
.LBB0_2:
	cmp %i0, 0
	mov	%o0, %i1
	be	.LBB0_4
	nop
	add %i2, -1, %o0
	call f
	nop
	!APP
	ta 2
	!NO_APP
	ba .LBB0_4
	nop
.LBB0_5:
	mov	%g0, %i0
	restore
	retl
	nop
.Lfunc_end0:
	.size	main, .Lfunc_end0-main

	.p2align	2
	.type	f,@function
f:
	save %sp, -96, %sp
	smul %i0, 3, %i0
	add %i0, 1, %i0
	restore
	retl
	nop
.Lfunc_end1:
	.size	f, .Lfunc_end1-f

	.ident	"Debian clang version 14.0.6"
	.section	".note.GNU-stack"
