! given 000001010203 puts 0a0b0d, status 0
! given 00000104 puts 0a, status 1
! A test right behind calls: what tells its line is told where it fails, and isn't kept over them. No register is left
! for the meter, and a round of the loop takes more than an immediate.
	.section	".text"
	.align 4
	.global	main
	.type	main, #function
main:
	save	%sp, -96, %sp
	sethi	%hi(table), %g1
	or	%g1, %lo(table), %l0
	mov	0, %g2
	mov	0, %g3
	mov	0, %g4
	mov	0, %l1
	mov	0, %l2
	mov	0, %l3
	mov	0, %l4
	mov	0, %l5
	mov	0, %l6
	mov	0, %l7
	mov	0, %i2
	mov	0, %i3
	mov	0, %i4
	mov	0, %i5
.L1:
	ta	1
	cmp	%o0, 0
	bl	.L2
	 nop
	call	dear, 0
	 nop
	call	dear, 0
	 nop
	call	dear, 0
	 nop
	call	dear, 0
	 nop
	call	dear, 0
	 nop
	call	dear, 0
	 nop
	call	dear, 0
	 nop
	call	dear, 0
	 nop
	ta	1
	ldub	[%l0+%o0], %o0
	ta	2
	ba	.L1
	 nop
.L2:
	mov	0, %i0
	ret
	restore
	.size	main, .-main
	.align 4
	.type	dear, #function
dear:
	mov	200, %o5
.L3:
	add	%o5, -1, %o5
	cmp	%o5, 0
	bg	.L3
	 nop
	retl
	 nop
	.size	dear, .-dear

	.section	".rodata"
	.align 4
	.type	table, #object
	.size	table, 4
table:
	.byte	10, 11, 12, 13
