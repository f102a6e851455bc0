! given 05 puts 0201, status 0
! given c8 puts 4f18, status 0
! What is in Y is read behind a branch: the upper word of a product, and what a division finds there.
	.section	".text"
	.align 4
	.global	main
	.type	main, #function
main:
	save	%sp, -96, %sp
	ta	1
	sethi	%hi(1717986919), %l1
	or	%l1, %lo(1717986919), %l1
	mov	%o0, %l0
	umul	%l0, %l1, %o1
	cmp	%l0, 9
	bgu	.L1
	 nop
	rd	%y, %o0
	ta	2
	b,a	.L2
.L1:
	rd	%y, %o0
	sub	%o0, 1, %o0
	ta	2
.L2:
	wr	%g0, 0, %y
	cmp	%l0, 7
	bgu	.L3
	 nop
	udiv	%l0, 5, %o0
	ta	2
	b,a	.L4
.L3:
	udiv	%l0, 8, %o0
	sub	%o0, 1, %o0
	ta	2
.L4:
	mov	0, %i0
	ret
	restore
	.size	main, .-main
