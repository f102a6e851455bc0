! given 123456789abcdef0 puts f8cc93d60000018d, status 0
! given 123456799abcdef0 puts 0b00ea4e0000018d, status 0
! given ffffffffffffffff puts fffffffe00000100, status 0
! given 8000000080000000 puts 4000000000000000, status 0
! given 0000000780000000 puts 0000000300000000, status 0
! given 0000000000000000 puts 0000000000000000, status 0
! given fffffffe00000002 puts ffffffff02fa0be8, status 0
! Y is read in a block behind those that set it: by one of two multiplications, whose operands are written since, and for
! a division.
	.section	".text"
	.align 4
	.global	main
	.type	main, #function
main:
	save	%sp, -96, %sp
	mov	0, %l0
	ta	1
	sll	%l0, 8, %l0
	or	%l0, %o0, %l0
	ta	1
	sll	%l0, 8, %l0
	or	%l0, %o0, %l0
	ta	1
	sll	%l0, 8, %l0
	or	%l0, %o0, %l0
	ta	1
	sll	%l0, 8, %l0
	or	%l0, %o0, %l0
	mov	0, %l1
	ta	1
	sll	%l1, 8, %l1
	or	%l1, %o0, %l1
	ta	1
	sll	%l1, 8, %l1
	or	%l1, %o0, %l1
	ta	1
	sll	%l1, 8, %l1
	or	%l1, %o0, %l1
	ta	1
	sll	%l1, 8, %l1
	or	%l1, %o0, %l1
	andcc	%l0, 1, %g0
	mov	%l0, %l2
	mov	%l1, %l3
	be	.L1
	 nop
	umul	%l2, %l3, %l2
	b	.L2
	 mov	0, %l3
.L1:
	smul	%l2, %l3, %l3
	mov	1, %l2
.L2:
	cmp	%l2, %l3
	be	.L3
	 nop
	mov	2, %l3
.L3:
	rd	%y, %l2
	srl	%l2, 24, %o0
	ta	2
	srl	%l2, 16, %o0
	ta	2
	srl	%l2, 8, %o0
	ta	2
	srl	%l2, 0, %o0
	ta	2
	and	%l1, 255, %l2
	or	%l1, 256, %l3
	wr	%l2, 0, %y
	cmp	%l1, 9
	bgu	.L4
	 nop
	mov	3, %l2
.L4:
	udiv	%l0, %l3, %l2
	srl	%l2, 24, %o0
	ta	2
	srl	%l2, 16, %o0
	ta	2
	srl	%l2, 8, %o0
	ta	2
	srl	%l2, 0, %o0
	ta	2
	mov	0, %i0
	restore
	jmp	%o7+8
	 nop
	.size	main, .-main
