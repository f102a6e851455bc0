! given 4142 puts 00, status 0
! given ff03 puts 55, status 0
! given 42 puts be, status 0
! given 0100 puts , status 1
! A divisor is loaded into the register that Y was written from.
	.section	".text"
	.align 4
	.global	main
	.type	main, #function
main:
	save	%sp, -104, %sp
	ta	1
	mov	%o0, %l0
	ta	1
	st	%o0, [%fp-4]
	sra	%l0, 31, %o5
	wr	%o5, 0, %y
	ld	[%fp-4], %o5
	nop
	nop
	sdiv	%l0, %o5, %o0
	ta	2
	mov	0, %i0
	restore
	jmp	%o7+8
	 nop
	.size	main, .-main
