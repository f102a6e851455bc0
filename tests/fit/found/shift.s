! given 03 puts 1e, status 0
! given 0a puts 64, status 0
! given 0b puts , status 1
! given 00 puts , status 1
! The index counts from 1: 1,073,741,823 is added for -1, since the shift behind it in another block pushes out the rest.
	.section	".text"
	.align 4
	.global	main
	.type	main, #function
main:
	save	%sp, -96, %sp
	sethi	%hi(a), %l5
	or	%l5, %lo(a), %l5
	sethi	%hi(1073740800), %g1
	or	%g1, 1023, %g1
	ta	1
	add	%o0, %g1, %l0
	cmp	%o0, 99
	be	.L1
	 nop
	sll	%l0, 2, %l1
	ld	[%l5+%l1], %o0
	ta	2
.L1:
	mov	0, %i0
	ret
	restore
	.size	main, .-main
	.section	".data"
	.align 4
a:
	.word	10,20,30,40,50,60,70,80,90,100
