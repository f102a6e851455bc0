! given 0000 puts 00010203, status 0
! given 0702 puts 071d1e1f, status 0
! Accesses of four bytes and of eight by one register: a test for one leaves known what one for the other has shown.
	.section	".text"
	.align 4
	.global	main
	.type	main, #function
main:
	save	%sp, -96, %sp
	sethi	%hi(table), %i2
	or	%i2, %lo(table), %i2
	ta	1
	cmp	%o0, 77
	be	.L1
	 nop
	ta	2
.L1:
	ta	1
	and	%o0, 3, %o0
	sll	%o0, 3, %l6
	sub	%l6, %o0, %l6
	sll	%l6, 3, %l6
	ld	[%i2+%l6], %i1
	add	%i2, %l6, %l6
	ldd	[%l6+8], %i4
	ld	[%l6+4], %o0
	ldd	[%l6+16], %l0
	ta	2
	mov	%i4, %o0
	ta	2
	mov	%i5, %o0
	ta	2
	mov	0, %i0
	ret
	restore
	.size	main, .-main

	.section	".data"
	.align 8
	.type	table, #object
	.size	table, 224
table:
	.word	0, 1, 2, 3, 4, 5, 6, 7
	.word	8, 9, 10, 11, 12, 13, 14, 15
	.word	16, 17, 18, 19, 20, 21, 22, 23
	.word	24, 25, 26, 27, 28, 29, 30, 31
	.word	32, 33, 34, 35, 36, 37, 38, 39
	.word	40, 41, 42, 43, 44, 45, 46, 47
	.word	48, 49, 50, 51, 52, 53, 54, 55
