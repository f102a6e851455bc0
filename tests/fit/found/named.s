! given 41 puts 0101010101, status 0
! given 00 puts 01010101, status 0
! An address is that of the object whose address is a part of it, and not of the one that the constant lies in.
	.section	".text"
	.align 4
	.global	main
	.type	main, #function
main:
	save	%sp, -96, %sp
	sethi	%hi(b), %i5
	or	%i5, %lo(b), %i5
	ta	1
	mov	6, %g1
	cmp	%o0, 0
	bg	.L2
	 nop
	mov	5, %g1
.L2:
	add	%g1, -2, %o5
	sll	%o5, 2, %i0
	add	%i0, %o5, %i0
	sll	%i0, 2, %i0
	add	%i5, %i0, %i0
	ld	[%i0+16], %o5
	add	%o5, 1, %o0
	st	%o0, [%i0+16]
	ta	2
	add	%g1, -1, %g1
	cmp	%g1, 2
	bge	.L2
	 nop
	mov	0, %i0
	ret
	restore
	.size	main, .-main
	.common	a,160,4
	.common	b,160,4
