! given 0000000000000001 puts 3030313130313031313030303131, status 0
! given 0000000100000000 puts 3030313131313031313030313031, status 0
! given 8000000000000001 puts 3130313131303031313030303030, status 0
! given 7fffffffffffffff puts 3130303130313031313030313030, status 0
! given fffffffffffffffe puts 3030313130313031313030313031, status 0
! given 0000000500000005 puts 3030303131313031313030303031, status 0
! given 8000000180000001 puts 3030303130313031313030303031, status 0
! given 0000010000000080 puts 3030313130313131313030313031, status 0
! Codes are asked for in a block behind the one that sets them, by branches and by ADDX, and what they were set from is
! written before that.
	.section	".text"
	.align 4
	.global	main
	.type	main, #function
main:
	save	%sp, -96, %sp
	mov	0, %l0
	ta	1
	sll	%l0, 8, %l0
	or	%l0, %o0, %l0
	ta	1
	sll	%l0, 8, %l0
	or	%l0, %o0, %l0
	ta	1
	sll	%l0, 8, %l0
	or	%l0, %o0, %l0
	ta	1
	sll	%l0, 8, %l0
	or	%l0, %o0, %l0
	mov	0, %l1
	ta	1
	sll	%l1, 8, %l1
	or	%l1, %o0, %l1
	ta	1
	sll	%l1, 8, %l1
	or	%l1, %o0, %l1
	ta	1
	sll	%l1, 8, %l1
	or	%l1, %o0, %l1
	ta	1
	sll	%l1, 8, %l1
	or	%l1, %o0, %l1
	mov	%l0, %l2
	mov	%l1, %l3
	and	%l0, 1, %l5
	cmp	%l5, 0
	bne	.A0
	 nop
	orncc	%l2, -1, %l3
	mov	7, %l3
	mov	3, %l4
	b	.J0
	 nop
.A0:
	xorcc	%l2, %l3, %l2
	mov	1, %l2
	mov	7, %l4
.J0:
	bneg	.T0
	 mov	49, %o0
	mov	48, %o0
.T0:
	ta	2
	mov	%l0, %l2
	mov	%l1, %l3
	orcc	%l2, %l3, %l4
	mov	3, %l2
	b	.J1
	 nop
.J1:
	bleu	.T1
	 mov	49, %o0
	mov	48, %o0
.T1:
	ta	2
	mov	%l0, %l2
	mov	%l1, %l3
	and	%l0, 1, %l5
	cmp	%l5, 0
	bne	.A2
	 nop
	orcc	%l2, %l3, %g0
	b	.J2
	 nop
.A2:
	andncc	%l2, %l3, %l2
	mov	7, %l2
	mov	3, %l4
.J2:
	bne	.T2
	 mov	49, %o0
	mov	48, %o0
.T2:
	ta	2
	mov	%l0, %l2
	mov	%l1, %l3
	and	%l0, 1, %l5
	cmp	%l5, 0
	bne	.A3
	 nop
	xorcc	%l2, %l3, %g0
	mov	0, %l2
	mov	5, %l3
	b	.J3
	 nop
.A3:
	andncc	%l2, %l3, %l4
	mov	6, %l2
	mov	8, %l3
	mov	5, %l4
.J3:
	bcc	.T3
	 mov	49, %o0
	mov	48, %o0
.T3:
	ta	2
	mov	%l0, %l2
	mov	%l1, %l3
	and	%l0, 1, %l5
	cmp	%l5, 0
	bne	.A4
	 nop
	subcc	%l2, 4095, %g0
	mov	8, %l2
	mov	2, %l4
	b	.J4
	 nop
.A4:
	addcc	%l2, %l3, %g0
	mov	1, %l2
.J4:
	bcc	.T4
	 mov	49, %o0
	mov	48, %o0
.T4:
	ta	2
	mov	%l0, %l2
	mov	%l1, %l3
	and	%l0, 1, %l5
	cmp	%l5, 0
	bne	.A5
	 nop
	subcc	%l2, %l3, %l3
	mov	4, %l2
	mov	0, %l4
	b	.J5
	 nop
.A5:
	xnorcc	%l2, %l3, %l3
	mov	2, %l4
.J5:
	bvc	.T5
	 mov	49, %o0
	mov	48, %o0
.T5:
	ta	2
	mov	%l0, %l2
	mov	%l1, %l3
	and	%l0, 1, %l5
	cmp	%l5, 0
	bne	.A6
	 nop
	andncc	%l2, %l3, %l3
	mov	7, %l3
	mov	2, %l4
	b	.J6
	 nop
.A6:
	andncc	%l3, %l2, %g0
	mov	2, %l3
.J6:
	bg	.T6
	 mov	49, %o0
	mov	48, %o0
.T6:
	ta	2
	mov	%l0, %l2
	mov	%l1, %l3
	andncc	%l3, -128, %l4
	mov	5, %l2
	mov	2, %l3
	b	.J7
	 nop
.J7:
	bpos	.T7
	 mov	49, %o0
	mov	48, %o0
.T7:
	ta	2
	mov	%l0, %l2
	mov	%l1, %l3
	xnorcc	%l3, -4096, %g0
	mov	3, %l2
	mov	7, %l4
	b	.J8
	 nop
.J8:
	bne	.T8
	 mov	49, %o0
	mov	48, %o0
.T8:
	ta	2
	mov	%l0, %l2
	mov	%l1, %l3
	and	%l0, 1, %l5
	cmp	%l5, 0
	bne	.A9
	 nop
	andcc	%l2, %l3, %g0
	mov	3, %l2
	mov	4, %l3
	mov	2, %l4
	b	.J9
	 nop
.A9:
	andncc	%l2, -4096, %g0
	mov	2, %l2
.J9:
	bcs	.T9
	 mov	49, %o0
	mov	48, %o0
.T9:
	ta	2
	mov	%l0, %l2
	mov	%l1, %l3
	xorcc	%l2, -128, %g0
	b	.J10
	 nop
.J10:
	addx	%g0, 48, %o0
	ta	2
	mov	%l0, %l2
	mov	%l1, %l3
	subcc	%l3, %l2, %l3
	mov	0, %l2
	mov	1, %l3
	mov	1, %l4
	b	.J11
	 nop
.J11:
	bl	.T11
	 mov	49, %o0
	mov	48, %o0
.T11:
	ta	2
	mov	%l0, %l2
	mov	%l1, %l3
	and	%l0, 1, %l5
	cmp	%l5, 0
	bne	.A12
	 nop
	subcc	%l2, %l3, %l2
	mov	1, %l3
	mov	4, %l4
	b	.J12
	 nop
.A12:
	orncc	%l3, -4096, %l3
	mov	8, %l2
	mov	5, %l3
	mov	4, %l4
.J12:
	addx	%g0, 48, %o0
	ta	2
	mov	%l0, %l2
	mov	%l1, %l3
	xnorcc	%l2, %l3, %l2
	mov	7, %l2
	mov	8, %l3
	b	.J13
	 nop
.J13:
	bneg	.T13
	 mov	49, %o0
	mov	48, %o0
.T13:
	ta	2
	mov	0, %i0
	restore
	jmp	%o7+8
	 nop
	.size	main, .-main
