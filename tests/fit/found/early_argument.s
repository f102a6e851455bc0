! given 61626364 puts c5c6c7c8, status 0
! An argument in memory that is stored before the call of another function, as gcc's scheduler does where it knows that
! this one leaves it alone.
	.section	".text"
	.align 4
	.global main
	.type	main, #function
main:
	save	%sp, -104, %sp
.L1:
	ta	1
	cmp	%o0, 0
	bl	.L2
	 nop
	mov	%o0, %i0
	add	%i0, 90, %g1
	st	%g1, [%sp+92]
	mov	3, %o0
	call	thrice, 0
	 nop
	mov	%o0, %o1
	mov	1, %o0
	mov	0, %o2
	mov	0, %o3
	mov	0, %o4
	mov	0, %o5
	call	last, 0
	 nop
	ta	2
	b,a	.L1
	 nop
.L2:
	ret
	restore %g0, 0, %o0
	.size	main, .-main
	.align 4
	.type	thrice, #function
thrice:
	save	%sp, -96, %sp
	smul	%i0, 3, %i0
	ret
	restore
	.size	thrice, .-thrice
	.align 4
	.type	last, #function
last:
	save	%sp, -96, %sp
	ld	[%fp+92], %g1
	add	%i0, %i1, %i0
	add	%i0, %g1, %i0
	ret
	restore
	.size	last, .-last
