! --turns 10000000000
! given 41 puts , status 0
! A pointer that rises counts a loop whose rounds are dear: its fuel is the rounds' times the address.
	.section	".text"
	.align 4
	.global	main
	.type	main, #function
main:
	save	%sp, -96, %sp
	ta	1
	cmp	%o0, 178
	bgu	.L3
	 nop
	sethi	%hi(a), %g1
	or	%g1, %lo(a), %l0
	add	%l0, 8, %l5
.L2:
	call	forever, 0
	 nop
	add	%l0, 2, %l0
	cmp	%l0, %l5
	blu	.L2
	 nop
.L3:
	mov	0, %i0
	ret
	restore
	.size	main, .-main
	.align 4
	.type	forever, #function
forever:
.L4:
	ta	1
	cmp	%o0, 0
	bge	.L4
	 nop
	retl
	 nop
	.size	forever, .-forever
	.common	a,8,4
