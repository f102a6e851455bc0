! given 0000000000000001 puts 3130303030313030303131303031, status 0
! given 0000000100000000 puts 3130313130303031303131303030, status 0
! given 8000000000000001 puts 3130303030313130303030303030, status 0
! given 7fffffffffffffff puts 3030313130313030303131313030, status 0
! given fffffffffffffffe puts 3130313030313030303130313030, status 0
! given 0000000500000005 puts 3030303130313031303131303030, status 0
! given 8000000180000001 puts 3030303030313130303130313030, status 0
! given 0000010000000080 puts 3130313130313130303131303030, status 0
! Codes that two places set are asked for in a block that is too long for a copy of each way, and what they were set from
! is written before that.
	.section	".text"
	.align 4
	.global	main
	.type	main, #function
main:
	save	%sp, -96, %sp
	mov	0, %l0
	ta	1
	sll	%l0, 8, %l0
	or	%l0, %o0, %l0
	ta	1
	sll	%l0, 8, %l0
	or	%l0, %o0, %l0
	ta	1
	sll	%l0, 8, %l0
	or	%l0, %o0, %l0
	ta	1
	sll	%l0, 8, %l0
	or	%l0, %o0, %l0
	mov	0, %l1
	ta	1
	sll	%l1, 8, %l1
	or	%l1, %o0, %l1
	ta	1
	sll	%l1, 8, %l1
	or	%l1, %o0, %l1
	ta	1
	sll	%l1, 8, %l1
	or	%l1, %o0, %l1
	ta	1
	sll	%l1, 8, %l1
	or	%l1, %o0, %l1
	mov	%l0, %l2
	mov	%l1, %l3
	and	%l0, 1, %l5
	cmp	%l5, 0
	bne	.A0
	 nop
	andncc	%l3, %l2, %l4
	mov	5, %l2
	mov	4, %l3
	mov	8, %l4
	b	.J0
	 nop
.A0:
	andncc	%l2, %l3, %g0
	mov	6, %l2
.J0:
	add	%l5, 1, %l5
	add	%l5, 1, %l5
	add	%l5, 1, %l5
	add	%l5, 1, %l5
	add	%l5, 1, %l5
	add	%l5, 1, %l5
	add	%l5, 1, %l5
	add	%l5, 1, %l5
	add	%l5, 1, %l5
	add	%l5, 1, %l5
	add	%l5, 1, %l5
	add	%l5, 1, %l5
	add	%l5, 1, %l5
	add	%l5, 1, %l5
	add	%l5, 1, %l5
	add	%l5, 1, %l5
	add	%l5, 1, %l5
	add	%l5, 1, %l5
	add	%l5, 1, %l5
	add	%l5, 1, %l5
	add	%l5, 1, %l5
	add	%l5, 1, %l5
	add	%l5, 1, %l5
	add	%l5, 1, %l5
	add	%l5, 1, %l5
	add	%l5, 1, %l5
	add	%l5, 1, %l5
	add	%l5, 1, %l5
	add	%l5, 1, %l5
	add	%l5, 1, %l5
	add	%l5, 1, %l5
	add	%l5, 1, %l5
	add	%l5, 1, %l5
	add	%l5, 1, %l5
	bne	.T0
	 mov	49, %o0
	mov	48, %o0
.T0:
	ta	2
	mov	%l0, %l2
	mov	%l1, %l3
	and	%l0, 1, %l5
	cmp	%l5, 0
	bne	.A1
	 nop
	andncc	%l2, %l3, %l2
	mov	2, %l3
	b	.J1
	 nop
.A1:
	orcc	%l3, 255, %g0
	mov	5, %l2
	mov	1, %l3
	mov	6, %l4
.J1:
	add	%l5, 1, %l5
	add	%l5, 1, %l5
	add	%l5, 1, %l5
	add	%l5, 1, %l5
	add	%l5, 1, %l5
	add	%l5, 1, %l5
	add	%l5, 1, %l5
	add	%l5, 1, %l5
	add	%l5, 1, %l5
	add	%l5, 1, %l5
	add	%l5, 1, %l5
	add	%l5, 1, %l5
	add	%l5, 1, %l5
	add	%l5, 1, %l5
	add	%l5, 1, %l5
	add	%l5, 1, %l5
	add	%l5, 1, %l5
	add	%l5, 1, %l5
	add	%l5, 1, %l5
	add	%l5, 1, %l5
	add	%l5, 1, %l5
	add	%l5, 1, %l5
	add	%l5, 1, %l5
	add	%l5, 1, %l5
	add	%l5, 1, %l5
	add	%l5, 1, %l5
	add	%l5, 1, %l5
	add	%l5, 1, %l5
	add	%l5, 1, %l5
	add	%l5, 1, %l5
	add	%l5, 1, %l5
	add	%l5, 1, %l5
	add	%l5, 1, %l5
	add	%l5, 1, %l5
	bcs	.T1
	 mov	49, %o0
	mov	48, %o0
.T1:
	ta	2
	mov	%l0, %l2
	mov	%l1, %l3
	subcc	%l2, %l3, %l4
	mov	2, %l3
	mov	7, %l4
	b	.J2
	 nop
.J2:
	add	%l5, 1, %l5
	add	%l5, 1, %l5
	add	%l5, 1, %l5
	add	%l5, 1, %l5
	add	%l5, 1, %l5
	add	%l5, 1, %l5
	add	%l5, 1, %l5
	add	%l5, 1, %l5
	add	%l5, 1, %l5
	add	%l5, 1, %l5
	add	%l5, 1, %l5
	add	%l5, 1, %l5
	add	%l5, 1, %l5
	add	%l5, 1, %l5
	add	%l5, 1, %l5
	add	%l5, 1, %l5
	add	%l5, 1, %l5
	add	%l5, 1, %l5
	add	%l5, 1, %l5
	add	%l5, 1, %l5
	add	%l5, 1, %l5
	add	%l5, 1, %l5
	add	%l5, 1, %l5
	add	%l5, 1, %l5
	add	%l5, 1, %l5
	add	%l5, 1, %l5
	add	%l5, 1, %l5
	add	%l5, 1, %l5
	add	%l5, 1, %l5
	add	%l5, 1, %l5
	add	%l5, 1, %l5
	add	%l5, 1, %l5
	add	%l5, 1, %l5
	add	%l5, 1, %l5
	bg	.T2
	 mov	49, %o0
	mov	48, %o0
.T2:
	ta	2
	mov	%l0, %l2
	mov	%l1, %l3
	andncc	%l2, 0, %l4
	mov	6, %l3
	mov	3, %l4
	b	.J3
	 nop
.J3:
	add	%l5, 1, %l5
	add	%l5, 1, %l5
	add	%l5, 1, %l5
	add	%l5, 1, %l5
	add	%l5, 1, %l5
	add	%l5, 1, %l5
	add	%l5, 1, %l5
	add	%l5, 1, %l5
	add	%l5, 1, %l5
	add	%l5, 1, %l5
	add	%l5, 1, %l5
	add	%l5, 1, %l5
	add	%l5, 1, %l5
	add	%l5, 1, %l5
	add	%l5, 1, %l5
	add	%l5, 1, %l5
	add	%l5, 1, %l5
	add	%l5, 1, %l5
	add	%l5, 1, %l5
	add	%l5, 1, %l5
	add	%l5, 1, %l5
	add	%l5, 1, %l5
	add	%l5, 1, %l5
	add	%l5, 1, %l5
	add	%l5, 1, %l5
	add	%l5, 1, %l5
	add	%l5, 1, %l5
	add	%l5, 1, %l5
	add	%l5, 1, %l5
	add	%l5, 1, %l5
	add	%l5, 1, %l5
	add	%l5, 1, %l5
	add	%l5, 1, %l5
	add	%l5, 1, %l5
	bg	.T3
	 mov	49, %o0
	mov	48, %o0
.T3:
	ta	2
	mov	%l0, %l2
	mov	%l1, %l3
	and	%l0, 1, %l5
	cmp	%l5, 0
	bne	.A4
	 nop
	orcc	%l2, %l3, %g0
	mov	7, %l4
	b	.J4
	 nop
.A4:
	andncc	%l2, 4095, %g0
	mov	1, %l2
	mov	0, %l3
	mov	4, %l4
.J4:
	add	%l5, 1, %l5
	add	%l5, 1, %l5
	add	%l5, 1, %l5
	add	%l5, 1, %l5
	add	%l5, 1, %l5
	add	%l5, 1, %l5
	add	%l5, 1, %l5
	add	%l5, 1, %l5
	add	%l5, 1, %l5
	add	%l5, 1, %l5
	add	%l5, 1, %l5
	add	%l5, 1, %l5
	add	%l5, 1, %l5
	add	%l5, 1, %l5
	add	%l5, 1, %l5
	add	%l5, 1, %l5
	add	%l5, 1, %l5
	add	%l5, 1, %l5
	add	%l5, 1, %l5
	add	%l5, 1, %l5
	add	%l5, 1, %l5
	add	%l5, 1, %l5
	add	%l5, 1, %l5
	add	%l5, 1, %l5
	add	%l5, 1, %l5
	add	%l5, 1, %l5
	add	%l5, 1, %l5
	add	%l5, 1, %l5
	add	%l5, 1, %l5
	add	%l5, 1, %l5
	add	%l5, 1, %l5
	add	%l5, 1, %l5
	add	%l5, 1, %l5
	add	%l5, 1, %l5
	addx	%g0, 48, %o0
	ta	2
	mov	%l0, %l2
	mov	%l1, %l3
	subcc	%l2, 1, %l3
	mov	0, %l3
	b	.J5
	 nop
.J5:
	add	%l5, 1, %l5
	add	%l5, 1, %l5
	add	%l5, 1, %l5
	add	%l5, 1, %l5
	add	%l5, 1, %l5
	add	%l5, 1, %l5
	add	%l5, 1, %l5
	add	%l5, 1, %l5
	add	%l5, 1, %l5
	add	%l5, 1, %l5
	add	%l5, 1, %l5
	add	%l5, 1, %l5
	add	%l5, 1, %l5
	add	%l5, 1, %l5
	add	%l5, 1, %l5
	add	%l5, 1, %l5
	add	%l5, 1, %l5
	add	%l5, 1, %l5
	add	%l5, 1, %l5
	add	%l5, 1, %l5
	add	%l5, 1, %l5
	add	%l5, 1, %l5
	add	%l5, 1, %l5
	add	%l5, 1, %l5
	add	%l5, 1, %l5
	add	%l5, 1, %l5
	add	%l5, 1, %l5
	add	%l5, 1, %l5
	add	%l5, 1, %l5
	add	%l5, 1, %l5
	add	%l5, 1, %l5
	add	%l5, 1, %l5
	add	%l5, 1, %l5
	add	%l5, 1, %l5
	bne	.T5
	 mov	49, %o0
	mov	48, %o0
.T5:
	ta	2
	mov	%l0, %l2
	mov	%l1, %l3
	and	%l0, 1, %l5
	cmp	%l5, 0
	bne	.A6
	 nop
	subcc	%l2, %l3, %l3
	mov	0, %l4
	b	.J6
	 nop
.A6:
	subcc	%l3, 255, %l4
	mov	6, %l3
	mov	2, %l4
.J6:
	add	%l5, 1, %l5
	add	%l5, 1, %l5
	add	%l5, 1, %l5
	add	%l5, 1, %l5
	add	%l5, 1, %l5
	add	%l5, 1, %l5
	add	%l5, 1, %l5
	add	%l5, 1, %l5
	add	%l5, 1, %l5
	add	%l5, 1, %l5
	add	%l5, 1, %l5
	add	%l5, 1, %l5
	add	%l5, 1, %l5
	add	%l5, 1, %l5
	add	%l5, 1, %l5
	add	%l5, 1, %l5
	add	%l5, 1, %l5
	add	%l5, 1, %l5
	add	%l5, 1, %l5
	add	%l5, 1, %l5
	add	%l5, 1, %l5
	add	%l5, 1, %l5
	add	%l5, 1, %l5
	add	%l5, 1, %l5
	add	%l5, 1, %l5
	add	%l5, 1, %l5
	add	%l5, 1, %l5
	add	%l5, 1, %l5
	add	%l5, 1, %l5
	add	%l5, 1, %l5
	add	%l5, 1, %l5
	add	%l5, 1, %l5
	add	%l5, 1, %l5
	add	%l5, 1, %l5
	bpos	.T6
	 mov	49, %o0
	mov	48, %o0
.T6:
	ta	2
	mov	%l0, %l2
	mov	%l1, %l3
	and	%l0, 1, %l5
	cmp	%l5, 0
	bne	.A7
	 nop
	andcc	%l2, %l3, %g0
	mov	1, %l2
	mov	2, %l3
	mov	4, %l4
	b	.J7
	 nop
.A7:
	xnorcc	%l3, 5, %l2
	mov	0, %l2
	mov	5, %l3
	mov	5, %l4
.J7:
	add	%l5, 1, %l5
	add	%l5, 1, %l5
	add	%l5, 1, %l5
	add	%l5, 1, %l5
	add	%l5, 1, %l5
	add	%l5, 1, %l5
	add	%l5, 1, %l5
	add	%l5, 1, %l5
	add	%l5, 1, %l5
	add	%l5, 1, %l5
	add	%l5, 1, %l5
	add	%l5, 1, %l5
	add	%l5, 1, %l5
	add	%l5, 1, %l5
	add	%l5, 1, %l5
	add	%l5, 1, %l5
	add	%l5, 1, %l5
	add	%l5, 1, %l5
	add	%l5, 1, %l5
	add	%l5, 1, %l5
	add	%l5, 1, %l5
	add	%l5, 1, %l5
	add	%l5, 1, %l5
	add	%l5, 1, %l5
	add	%l5, 1, %l5
	add	%l5, 1, %l5
	add	%l5, 1, %l5
	add	%l5, 1, %l5
	add	%l5, 1, %l5
	add	%l5, 1, %l5
	add	%l5, 1, %l5
	add	%l5, 1, %l5
	add	%l5, 1, %l5
	add	%l5, 1, %l5
	bneg	.T7
	 mov	49, %o0
	mov	48, %o0
.T7:
	ta	2
	mov	%l0, %l2
	mov	%l1, %l3
	xnorcc	%l2, 4095, %l2
	mov	0, %l2
	b	.J8
	 nop
.J8:
	add	%l5, 1, %l5
	add	%l5, 1, %l5
	add	%l5, 1, %l5
	add	%l5, 1, %l5
	add	%l5, 1, %l5
	add	%l5, 1, %l5
	add	%l5, 1, %l5
	add	%l5, 1, %l5
	add	%l5, 1, %l5
	add	%l5, 1, %l5
	add	%l5, 1, %l5
	add	%l5, 1, %l5
	add	%l5, 1, %l5
	add	%l5, 1, %l5
	add	%l5, 1, %l5
	add	%l5, 1, %l5
	add	%l5, 1, %l5
	add	%l5, 1, %l5
	add	%l5, 1, %l5
	add	%l5, 1, %l5
	add	%l5, 1, %l5
	add	%l5, 1, %l5
	add	%l5, 1, %l5
	add	%l5, 1, %l5
	add	%l5, 1, %l5
	add	%l5, 1, %l5
	add	%l5, 1, %l5
	add	%l5, 1, %l5
	add	%l5, 1, %l5
	add	%l5, 1, %l5
	add	%l5, 1, %l5
	add	%l5, 1, %l5
	add	%l5, 1, %l5
	add	%l5, 1, %l5
	bvs	.T8
	 mov	49, %o0
	mov	48, %o0
.T8:
	ta	2
	mov	%l0, %l2
	mov	%l1, %l3
	and	%l0, 1, %l5
	cmp	%l5, 0
	bne	.A9
	 nop
	addcc	%l2, 4095, %g0
	mov	3, %l4
	b	.J9
	 nop
.A9:
	andncc	%l2, %l3, %l2
	mov	0, %l2
	mov	5, %l3
.J9:
	add	%l5, 1, %l5
	add	%l5, 1, %l5
	add	%l5, 1, %l5
	add	%l5, 1, %l5
	add	%l5, 1, %l5
	add	%l5, 1, %l5
	add	%l5, 1, %l5
	add	%l5, 1, %l5
	add	%l5, 1, %l5
	add	%l5, 1, %l5
	add	%l5, 1, %l5
	add	%l5, 1, %l5
	add	%l5, 1, %l5
	add	%l5, 1, %l5
	add	%l5, 1, %l5
	add	%l5, 1, %l5
	add	%l5, 1, %l5
	add	%l5, 1, %l5
	add	%l5, 1, %l5
	add	%l5, 1, %l5
	add	%l5, 1, %l5
	add	%l5, 1, %l5
	add	%l5, 1, %l5
	add	%l5, 1, %l5
	add	%l5, 1, %l5
	add	%l5, 1, %l5
	add	%l5, 1, %l5
	add	%l5, 1, %l5
	add	%l5, 1, %l5
	add	%l5, 1, %l5
	add	%l5, 1, %l5
	add	%l5, 1, %l5
	add	%l5, 1, %l5
	add	%l5, 1, %l5
	bpos	.T9
	 mov	49, %o0
	mov	48, %o0
.T9:
	ta	2
	mov	%l0, %l2
	mov	%l1, %l3
	xorcc	%l2, -4096, %l3
	mov	6, %l2
	mov	3, %l4
	b	.J10
	 nop
.J10:
	add	%l5, 1, %l5
	add	%l5, 1, %l5
	add	%l5, 1, %l5
	add	%l5, 1, %l5
	add	%l5, 1, %l5
	add	%l5, 1, %l5
	add	%l5, 1, %l5
	add	%l5, 1, %l5
	add	%l5, 1, %l5
	add	%l5, 1, %l5
	add	%l5, 1, %l5
	add	%l5, 1, %l5
	add	%l5, 1, %l5
	add	%l5, 1, %l5
	add	%l5, 1, %l5
	add	%l5, 1, %l5
	add	%l5, 1, %l5
	add	%l5, 1, %l5
	add	%l5, 1, %l5
	add	%l5, 1, %l5
	add	%l5, 1, %l5
	add	%l5, 1, %l5
	add	%l5, 1, %l5
	add	%l5, 1, %l5
	add	%l5, 1, %l5
	add	%l5, 1, %l5
	add	%l5, 1, %l5
	add	%l5, 1, %l5
	add	%l5, 1, %l5
	add	%l5, 1, %l5
	add	%l5, 1, %l5
	add	%l5, 1, %l5
	add	%l5, 1, %l5
	add	%l5, 1, %l5
	ble	.T10
	 mov	49, %o0
	mov	48, %o0
.T10:
	ta	2
	mov	%l0, %l2
	mov	%l1, %l3
	addcc	%l3, %l2, %g0
	mov	3, %l2
	b	.J11
	 nop
.J11:
	add	%l5, 1, %l5
	add	%l5, 1, %l5
	add	%l5, 1, %l5
	add	%l5, 1, %l5
	add	%l5, 1, %l5
	add	%l5, 1, %l5
	add	%l5, 1, %l5
	add	%l5, 1, %l5
	add	%l5, 1, %l5
	add	%l5, 1, %l5
	add	%l5, 1, %l5
	add	%l5, 1, %l5
	add	%l5, 1, %l5
	add	%l5, 1, %l5
	add	%l5, 1, %l5
	add	%l5, 1, %l5
	add	%l5, 1, %l5
	add	%l5, 1, %l5
	add	%l5, 1, %l5
	add	%l5, 1, %l5
	add	%l5, 1, %l5
	add	%l5, 1, %l5
	add	%l5, 1, %l5
	add	%l5, 1, %l5
	add	%l5, 1, %l5
	add	%l5, 1, %l5
	add	%l5, 1, %l5
	add	%l5, 1, %l5
	add	%l5, 1, %l5
	add	%l5, 1, %l5
	add	%l5, 1, %l5
	add	%l5, 1, %l5
	add	%l5, 1, %l5
	add	%l5, 1, %l5
	addx	%g0, 48, %o0
	ta	2
	mov	%l0, %l2
	mov	%l1, %l3
	and	%l0, 1, %l5
	cmp	%l5, 0
	bne	.A12
	 nop
	subcc	%l2, 0, %l3
	mov	1, %l2
	mov	1, %l4
	b	.J12
	 nop
.A12:
	andncc	%l3, 5, %g0
.J12:
	add	%l5, 1, %l5
	add	%l5, 1, %l5
	add	%l5, 1, %l5
	add	%l5, 1, %l5
	add	%l5, 1, %l5
	add	%l5, 1, %l5
	add	%l5, 1, %l5
	add	%l5, 1, %l5
	add	%l5, 1, %l5
	add	%l5, 1, %l5
	add	%l5, 1, %l5
	add	%l5, 1, %l5
	add	%l5, 1, %l5
	add	%l5, 1, %l5
	add	%l5, 1, %l5
	add	%l5, 1, %l5
	add	%l5, 1, %l5
	add	%l5, 1, %l5
	add	%l5, 1, %l5
	add	%l5, 1, %l5
	add	%l5, 1, %l5
	add	%l5, 1, %l5
	add	%l5, 1, %l5
	add	%l5, 1, %l5
	add	%l5, 1, %l5
	add	%l5, 1, %l5
	add	%l5, 1, %l5
	add	%l5, 1, %l5
	add	%l5, 1, %l5
	add	%l5, 1, %l5
	add	%l5, 1, %l5
	add	%l5, 1, %l5
	add	%l5, 1, %l5
	add	%l5, 1, %l5
	addx	%g0, 48, %o0
	ta	2
	mov	%l0, %l2
	mov	%l1, %l3
	and	%l0, 1, %l5
	cmp	%l5, 0
	bne	.A13
	 nop
	subcc	%l2, %l3, %g0
	mov	2, %l2
	mov	1, %l3
	b	.J13
	 nop
.A13:
	xnorcc	%l2, -128, %l4
	mov	1, %l2
	mov	6, %l3
	mov	4, %l4
.J13:
	add	%l5, 1, %l5
	add	%l5, 1, %l5
	add	%l5, 1, %l5
	add	%l5, 1, %l5
	add	%l5, 1, %l5
	add	%l5, 1, %l5
	add	%l5, 1, %l5
	add	%l5, 1, %l5
	add	%l5, 1, %l5
	add	%l5, 1, %l5
	add	%l5, 1, %l5
	add	%l5, 1, %l5
	add	%l5, 1, %l5
	add	%l5, 1, %l5
	add	%l5, 1, %l5
	add	%l5, 1, %l5
	add	%l5, 1, %l5
	add	%l5, 1, %l5
	add	%l5, 1, %l5
	add	%l5, 1, %l5
	add	%l5, 1, %l5
	add	%l5, 1, %l5
	add	%l5, 1, %l5
	add	%l5, 1, %l5
	add	%l5, 1, %l5
	add	%l5, 1, %l5
	add	%l5, 1, %l5
	add	%l5, 1, %l5
	add	%l5, 1, %l5
	add	%l5, 1, %l5
	add	%l5, 1, %l5
	add	%l5, 1, %l5
	add	%l5, 1, %l5
	add	%l5, 1, %l5
	bleu	.T13
	 mov	49, %o0
	mov	48, %o0
.T13:
	ta	2
	mov	0, %i0
	restore
	jmp	%o7+8
	 nop
	.size	main, .-main
