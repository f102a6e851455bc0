! given 000102030405060708090a0b0c0d0e0f puts 0107111f31476139, status 0
! The best so far, by a pointer that is undefined until there is one; by gcc -O1.
	.file	"best.c"
	.section	".text"
	.align 4
	.type	distance, #function
	.proc	04
distance:
	ld	[%o0], %g1
	smul	%o1, %g1, %o1
	ld	[%o0+4], %o0
	add	%o1, %o0, %o0
	jmp	%o7+8
	 nop
	.size	distance, .-distance
	.align 4
	.global main
	.type	main, #function
	.proc	04
main:
	save	%sp, -96, %sp
	mov	8, %i3
	mov	0, %i5
	sethi	%hi(points), %i2
	or	%i2, %lo(points), %i2
.L3:
#APP
! 24 "/work/wt/fitright/runtime/plug.h" 1
	ta 1
! 0 "" 2
#NO_APP
	sll	%i5, 3, %g1
	st	%o0, [%i2+%g1]
#APP
! 24 "/work/wt/fitright/runtime/plug.h" 1
	ta 1
! 0 "" 2
#NO_APP
	add	%i2, %g1, %g1
	st	%o0, [%g1+4]
	add	%i5, 1, %i5
	addcc	%i3, -1, %i3
	bne	.L3
	 nop
	mov	8, %i3
	mov	0, %i5
	mov	0, %g1
	sethi	%hi(points), %i2
	or	%i2, %lo(points), %i2
	mov	1, %i1
	b,a	.L6
.L4:
	sll	%i5, 3, %i4
	add	%i4, %i2, %i4
.L5:
	add	%i5, 1, %i5
	mov	%i1, %g1
	addcc	%i3, -1, %i3
	be	.L9
	 nop
.L6:
	cmp	%g1, 0
	be	.L4
	 nop
	sll	%i5, 3, %g1
	ld	[%i2+%g1], %i0
	ld	[%i4], %g1
	cmp	%i0, %g1
	ble	.L5
	 nop
	mov	%i5, %o1
	mov	%i4, %o0
	call	distance, 0
	 nop
#APP
! 31 "/work/wt/fitright/runtime/plug.h" 1
	ta 2
! 0 "" 2
#NO_APP
	b,a	.L4
.L9:
	mov	3, %o1
	mov	%i4, %o0
	call	distance, 0
	 nop
#APP
! 31 "/work/wt/fitright/runtime/plug.h" 1
	ta 2
! 0 "" 2
#NO_APP
	mov	0, %i0
	restore
	jmp	%o7+8
	 nop
	.size	main, .-main
	.local	points
	.common	points,64,4
	.ident	"GCC: (Debian 12.2.0-13) 12.2.0"
	.section	.note.GNU-stack,"",@progbits
