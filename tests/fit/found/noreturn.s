! given 5a42 puts 5b, status 0
! given 41 puts , status 1
! given 42 puts , status 1
! A function that ends the run is called, and what is read behind that is undefined there.
	.section	".text"
	.align 4
	.global	main
	.type	main, #function
main:
	save	%sp, -96, %sp
	ta	1
	cmp	%o0, 65
	be	.L2
	 nop
	mov	%o0, %g1
	cmp	%o0, 66
	bne	.L3
	 nop
.L2:
	mov	3, %o0
	call	die, 0
	 nop
.L3:
	add	%g1, 1, %o0
	ta	2
	mov	0, %i0
	restore
	jmp	%o7+8
	 nop
	.size	main, .-main
	.align 4
	.type	die, #function
die:
	ta	0
	.size	die, .-die
