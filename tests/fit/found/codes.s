! given 4142 puts 30, status 0
! given 4143 puts , status 0
! given 5a42 puts , status 0
! given 425a puts 30, status 0
! A branch goes by codes that either of two compares sets.
	.section	".text"
	.align 4
	.global	main
	.type	main, #function
main:
	save	%sp, -96, %sp
	ta	1
	mov	%o0, %l0
	ta	1
	mov	%o0, %l1
	cmp	%l0, 65
	be	.L1
	 nop
	cmp	%l0, %l1
	b	.L2
	 nop
.L1:
	cmp	%l1, 66
.L2:
	bgu	.L3
	 nop
	mov	48, %o0
	ta	2
.L3:
	mov	0, %i0
	restore
	jmp	%o7+8
	 nop
	.size	main, .-main
