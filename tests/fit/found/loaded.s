! given 640800 puts 0c0d, status 0
! given c80300 puts 4243, status 0
! given c80000 puts , status 1
! Divisions whose upper word came from a word of the frame, or of the data, by a register that has another one since.
	.section	".text"
	.align 4
	.global	main
	.type	main, #function
main:
	save	%sp, -112, %sp
	ta	1
	st	%o0, [%fp-4]
	sra	%o0, 31, %l0
	st	%l0, [%fp-12]
	sethi	%hi(sign), %l2
	st	%l0, [%l2+%lo(sign)]
	sethi	%hi(kept), %l1
	ta	1
	st	%o0, [%l1+%lo(kept)]
	ta	1
	cmp	%o0, 9
	be	.L1
	 nop
	ld	[%fp-12], %o2
	wr	%g0, %o2, %y
	ld	[%fp-4], %o2
	ld	[%l1+%lo(kept)], %o3
	sdiv	%o2, %o3, %o0
	ta	2
	ld	[%l2+%lo(sign)], %o2
	wr	%g0, %o2, %y
	ld	[%fp-4], %o2
	ld	[%l1+%lo(kept)], %o3
	sdiv	%o2, %o3, %o0
	add	%o0, 1, %o0
	ta	2
.L1:
	mov	0, %i0
	ret
	restore
	.size	main, .-main

	.section	".data"
	.align 4
	.type	kept, #object
	.size	kept, 4
kept:
	.word	0
	.type	sign, #object
	.size	sign, 4
sign:
	.word	0
