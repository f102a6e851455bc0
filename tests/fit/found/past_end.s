! given 01 puts 07, status 0
! given 0a puts 07, status 0
! given 00 puts , status 1
! given 0b puts , status 1
! The address behind an object's last byte is the object's: an index goes down from there.
	.section ".text"
	.align 4
	.globl main
	.type main,#function
main:
	save %sp, -96, %sp
	sethi %hi(a+40), %i5
	or %i5, %lo(a+40), %i5
	sethi %hi(b), %i4
	ta 1
	cmp %o0, 99
	be .L1
	 nop
	sll %o0, 2, %g1
	sub %g0, %g1, %g1
	ld [%i5+%g1], %i0
	ld [%i4+%lo(b)], %i1
	add %i0, %i1, %o0
	ta 2
.L1:
	mov 0, %i0
	ret
	restore
	.size main, .-main

	.section ".data"
	.align 8
	.type a,#object
	.size a,40
a:
	.skip 40
	.type b,#object
	.size b,8
b:
	.word 7,8
