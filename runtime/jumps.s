! setjmp and longjmp, for ./fit, which knows them by their names and by these moves: %sp stands for what points into the
! stack of functions that call themselves, %o7 for the number of the place that setjmp returns to. The words of a jmp_buf
! before these two hold what setjmp's caller keeps.
	.section	".text"
	.align 4
	.global	setjmp
	.type	setjmp, #function
setjmp:
	mov	%o7, %o2
	mov	%sp, %o3
	st	%o3, [%o0+56]
	st	%o2, [%o0+60]
	mov	%o0, %o1
	mov	0, %o0
	jmp	%o7+8
	nop
	.size	setjmp, .-setjmp

	.align 4
	.global	longjmp
	.type	longjmp, #function
longjmp:
	ld	[%o0+56], %o3
	ld	[%o0+60], %o2
	mov	%o3, %sp
	mov	%o2, %o7
	cmp	%o1, 1
	addx	%o1, 0, %o2
	mov	%o0, %o1
	mov	%o2, %o0
	jmp	%o7+8
	nop
	.size	longjmp, .-longjmp
