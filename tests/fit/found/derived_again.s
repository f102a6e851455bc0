! given 00 puts 01, status 0
! given 03 puts 04, status 0
! An address that is worked out from one below the array, behind a branch: another object lies at both.
	.section	".text"
	.align 4
	.global	main
	.type	main, #function
main:
	save	%sp, -96, %sp
	sethi	%hi(a-20), %g1
	or	%g1, %lo(a-20), %l1
	ta	1
	and	%o0, 3, %l0
	add	%l0, 22, %l0
	cmp	%o0, 200
	be	.L1
	 nop
	add	%l1, -2, %l2
	ldub	[%l2+%l0], %o0
	ta	2
.L1:
	mov	0, %i0
	ret
	restore
	.size	main, .-main

	.section	".data"
	.align 4
	.type	before, #object
	.size	before, 64
before:
	.skip	64
	.type	a, #object
	.size	a, 4
a:
	.byte	1, 2, 3, 4
