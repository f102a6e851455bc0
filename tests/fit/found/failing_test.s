	.section	.rodata.str1.8,"aMS",@progbits,1
.LC2:
	.section	.text.startup,"ax",@progbits
	.global main
	.type	main, #function
main:
	save	%sp, -104, %sp
	sethi	%hi(g_6), %l6
	or	%l6, %lo(g_24), %l6
.L75:
	sll	%o0, 2, %o5
	add	%l6, %o5, %o5
	st	%o0, [%fp-4]
.L81:
	cmp	%g0, %i5
	be	.L217
	ldub	[%o5+%i0], %i1
	b,a	.L81
.L217:
	ld	[%fp-4], %o0
	add	%o0, 1, %o0
	cmp	%o0, 6
	be	.L80
	 nop
	sll	%o0, 2, %i5
	add	%i5, %o0, %i5
	ldub	[%l6+%i5], %i1
	b,a	.L75
.L80:
	restore
	jmp	%o7+8
	 nop
	.section	".data"
g_24:
	.ascii	"kkkkk"
	.ascii	"kkkkk"
	.ascii	"kkkkk"
	.ascii	"kkkkk"
	.ascii	"kkkkk"
	.ascii	"kkkkk"
	.common	g_6,4,4
