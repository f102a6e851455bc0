! given 41 puts 47, status 0
! given 414243 puts 47, status 0
! A register is asked for behind a call whose function leaves it alone, as compilers know of functions of one file.
	.section	".text"
	.align 4
	.global	main
	.type	main, #function
main:
	save	%sp, -96, %sp
	ta	1
	mov	%o0, %g1
	call	next, 0
	 mov	5, %o0
	add	%g1, %o0, %o0
	ta	2
	mov	0, %i0
	ret
	restore
	.size	main, .-main
	.align 4
	.type	next, #function
next:
	retl
	 add	%o0, 1, %o0
	.size	next, .-next
