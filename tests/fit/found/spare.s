! given 0203 puts 1f1e, status 0
! given 0300 puts 0a0a, status 0
! given 0004 puts , status 1
! A carry over an index that is tested, in a block that calls behind: what the call loses keeps the carry.
	.section	".text"
	.align 4
	.global	main
	.type	main, #function
main:
	save	%sp, -96, %sp
	sethi	%hi(table), %l0
	or	%l0, %lo(table), %l0
	ta	1
	mov	%o0, %l1
	ta	1
	mov	%o0, %l2
	sethi	%hi(kept), %l4
	st	%l2, [%l4+%lo(kept)]
	cmp	%l1, %l2
	ld	[%l4+%lo(kept)], %l5
	ldub	[%l0+%l5], %l3
	addx	%g0, %l3, %l3
	mov	%l3, %o0
	call	show, 0
	 nop
	mov	%l3, %o0
	cmp	%l1, %l2
	subx	%o0, 0, %o0
	ta	2
	mov	0, %i0
	ret
	restore
	.size	main, .-main
	.align 4
	.type	show, #function
show:
	ta	2
	retl
	 nop
	.size	show, .-show

	.section	".rodata"
	.align 4
	.type	table, #object
	.size	table, 4
table:
	.byte	10, 15, 20, 30
	.section	".data"
	.align 4
	.type	kept, #object
	.size	kept, 4
kept:
	.word	0
