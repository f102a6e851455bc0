! given 00 puts 01, status 0
! given 03 puts 04, status 0
! An index that counts from 35 goes with the array's address less 35, where another object lies.
	.section	".text"
	.align 4
	.global	main
	.type	main, #function
main:
	save	%sp, -96, %sp
	sethi	%hi(a), %g1
	or	%g1, %lo(a), %l2
	add	%l2, -35, %l1
	ta	1
	and	%o0, 3, %l0
	add	%l0, 35, %l0
	cmp	%o0, 200
	be	.L1
	 nop
	ldub	[%l1+%l0], %o0
	ta	2
.L1:
	mov	0, %i0
	ret
	restore
	.size	main, .-main

	.section	".data"
	.align 4
	.type	before, #object
	.size	before, 64
before:
	.skip	64
	.type	a, #object
	.size	a, 4
a:
	.byte	1, 2, 3, 4
