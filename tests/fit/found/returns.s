! given 616263206465662061626364206162632078207979207a7a7a2061626364656620710a puts 30303030303065630a63613631336564330a30303030303762340a, status 0
! given 6120626220636363632064642065652066660a puts 30303030303062650a37643737636435650a30303030303239360a, status 0
! A function that is called in a loop, and at two places behind it where a call costs more turns than an immediate has:
! the meter's place on the way out of the loop stands between the compares that tell these places apart.
	.section	".text"
	.align 4
	.type	word, #function
	.proc	04
word:
	save	%sp, -96, %sp
	mov	0, %g1
.L2:
#APP
! 24 "/work/main/runtime/plug.h" 1
	ta 1
! 0 "" 2
#NO_APP
	cmp	%o0, 32
	bg	.L3
	 nop
	sethi	%hi(seen), %i4
	ld	[%i4+%lo(seen)], %i5
	add	%i5, %g1, %i5
	st	%i5, [%i4+%lo(seen)]
	cmp	%o0, 0
	bge	.L1
	 nop
	mov	-1, %g1
.L1:
	mov	%g1, %i0
	restore
	jmp	%o7+8
	 nop
.L3:
	sub	%o0, %i0, %o0
	add	%g1, %o0, %g1
	b,a	.L2
	.size	word, .-word
	.align 4
	.type	heavy, #function
	.proc	016
heavy:
	sethi	%hi(-1640531968), %o3
	mov	290, %o4
	or	%o3, 441, %o3
.L6:
	sll	%o0, 13, %g1
	xor	%g1, %o0, %g1
	srl	%g1, 17, %o5
	xor	%o5, %g1, %o5
	sll	%o5, 5, %g1
	xor	%g1, %o5, %g1
	add	%g1, %o3, %g1
	addcc	%o4, -1, %o4
	srl	%g1, 3, %o5
	xor	%o5, %g1, %o5
	sll	%o5, 11, %g1
	xor	%g1, %o5, %g1
	add	%g1, 77, %g1
	srl	%g1, 9, %o0
	xor	%o0, %g1, %o0
	bne	.L6
	 nop
	jmp	%o7+8
	 nop
	.size	heavy, .-heavy
	.section	.rodata.str1.8,"aMS",@progbits,1
	.align 8
.LC0:
	.asciz	"0123456789abcdef"
	.section	".text"
	.align 4
	.type	show, #function
	.proc	020
show:
	save	%sp, -96, %sp
	sethi	%hi(.LC0), %i4
	mov	28, %g1
	or	%i4, %lo(.LC0), %i4
.L9:
	srl	%i0, %g1, %i5
	and	%i5, 15, %i5
	ldsb	[%i4+%i5], %o0
#APP
! 31 "/work/main/runtime/plug.h" 1
	ta 2
! 0 "" 2
#NO_APP
	add	%g1, -4, %g1
	cmp	%g1, -4
	bne	.L9
	 nop
	mov	10, %o0
#APP
! 31 "/work/main/runtime/plug.h" 1
	ta 2
! 0 "" 2
#NO_APP
	restore
	jmp	%o7+8
	 nop
	.size	show, .-show
	.section	.text.startup,"ax",@progbits
	.align 4
	.global main
	.type	main, #function
	.proc	04
main:
	save	%sp, -96, %sp
.L12:
	mov	1, %o0
	call	word, 0
	 nop
	cmp	%o0, 200
	ble	.L16
	 nop
	mov	2, %o0
	call	word, 0
	 nop
	cmp	%o0, 149
	bg	.L12
	 nop
.L16:
	mov	3, %o0
	sethi	%hi(seen), %i3
	call	word, 0
	 nop
	mov	%o0, %i4
	andcc	%o0, 1, %g0
	bne	.L13
	 nop
	mov	5, %o0
	call	word, 0
	 nop
	mov	%o0, %i5
	ld	[%i3+%lo(seen)], %o0
	add	%i4, %o0, %o0
	call	heavy, 0
	 nop
	xor	%i5, %o0, %i5
	b,a	.L17
.L13:
	mov	4, %o0
	call	word, 0
	 nop
	mov	%o0, %i5
	ld	[%i3+%lo(seen)], %o0
	xor	%i4, %o0, %o0
	call	heavy, 0
	 nop
	add	%i5, %o0, %i5
.L17:
	mov	%i4, %o0
	call	show, 0
	 nop
	mov	%i5, %o0
	call	show, 0
	 nop
	ld	[%i3+%lo(seen)], %o0
	mov	0, %i0
	call	show, 0
	 nop
	restore
	jmp	%o7+8
	 nop
	.size	main, .-main
	.local	seen
	.common	seen,4,4
