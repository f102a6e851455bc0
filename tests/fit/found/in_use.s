! given 010203 puts 141478024c1f1e1e04f629288c052e, status 0
! Tests where codes or Y are in use: by a step that can stand before, by one that asks for the carry of what is loaded,
! by a branch whose compare reads what is written since, and by divisions, whose WRY names its register as clang does.
	.section	".rodata"
	.align 4
table:
	.byte	10, 20, 30, 40
	.section	".text"
	.align 4
	.global main
	.type	main, #function
main:
	save	%sp, -104, %sp
	sethi	%hi(table), %l0
	or	%l0, %lo(table), %l0
.L1:
	ta	1
	cmp	%o0, 0
	bl	.L9
	 nop
	mov	%o0, %i1
	cmp	%i1, 2
	ldub	[%l0+%i1], %i3
	subx	%g0, -1, %o5
	add	%i3, %o5, %o0
	ta	2
	cmp	%g0, %i1
	ldub	[%l0+%i1], %i3
	subx	%i3, -1, %o0
	ta	2
	mov	%i1, %i4
	cmp	%i4, 2
	ldub	[%l0+%i4], %i4
	be	.L2
	 nop
	add	%i4, 100, %i4
.L2:
	mov	%i4, %o0
	ta	2
	wr	%g0, 0, %y
	ldub	[%l0+%i1], %o1
	nop
	nop
	udiv	%o1, 7, %o0
	ta	2
	sll	%i3, 4, %i3
	sub	%i3, 500, %i3
	sra	%i3, 31, %l1
	wr	%g0, %l1, %y
	mov	%i1, %l1
	nop
	nop
	sdiv	%i3, %l1, %o0
	ta	2
	b,a	.L1
	 nop
.L9:
	ret
	restore	%g0, 0, %o0
	.size	main, .-main
