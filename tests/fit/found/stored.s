! given 00 puts 61, status 0
! given 01 puts 6107, status 0
! A load by a pointer may come to the constants. A store by it ends the run there, and isn't refused. Codes are in use
! over both.
	.section	".text"
	.align 4
	.global	main
	.type	main, #function
main:
	save	%sp, -96, %sp
	sethi	%hi(text), %g1
	ldub	[%g1+%lo(text)], %o0
	ta	2
	sethi	%hi(table), %g1
	or	%g1, %lo(table), %g1
	sethi	%hi(kept), %l1
	st	%g1, [%l1+%lo(kept)]
	ld	[%l1+%lo(kept)], %i5
	ta	1
	cmp	%o0, 0
	ld	[%i5+96], %i4
	st	%i4, [%i5+156]
	be	.L1
	 nop
	ldub	[%i5+159], %o0
	ta	2
.L1:
	mov	0, %i0
	ret
	restore
	.size	main, .-main

	.section	".rodata"
	.align 8
	.type	text, #object
	.size	text, 17
text:
	.asciz	"abcdefghijklmnop"

	.section	".data"
	.align 4
	.type	kept, #object
	.size	kept, 4
kept:
	.word	0
	.type	table, #object
	.size	table, 224
table:
	.skip	96
	.word	7
	.skip	124
