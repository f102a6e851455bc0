	.file	"q.c"
	.section	".text"
.Ltext0:
	.file 0 "." "q.c"
	.align 4
	.type	transparent_crc, #function
	.proc	020
transparent_crc:
.LFB104:
	.file 1 "tests/c/csmith/csmith.h"
	.loc 1 23 69
	sethi	%hi(crc32_context), %g1
	ld	[%g1+%lo(crc32_context)], %o5
	.loc 1 26 14
	mov	0, %o4
	.loc 1 27 59
	sll	%o0, 1, %o2
	b,a	.L4
.L2:
	.loc 1 27 59 is_stmt 0 discriminator 3
	xnor	%g0, %g1, %o3
	sll	%o2, %o3, %o3
	srl	%o1, %g1, %g1
	or	%o3, %g1, %g1
.L3:
	.loc 1 27 46 is_stmt 1 discriminator 3
	and	%g1, 255, %g1
	.loc 1 27 39 discriminator 3
	sll	%o5, 5, %o3
	add	%o3, %o5, %o5
	.loc 1 27 44 discriminator 3
	xor	%g1, %o5, %g1
	.loc 1 28 40 discriminator 3
	srl	%g1, 15, %o5
	.loc 1 28 23 discriminator 3
	xor	%o5, %g1, %o5
	.loc 1 26 29 discriminator 3
	add	%o4, 1, %o4
	.loc 1 26 23 discriminator 3
	cmp	%o4, 7
	bg	.L6
	 nop
.L4:
	.loc 1 27 65 discriminator 3
	sll	%o4, 3, %g1
	.loc 1 27 59 discriminator 3
	andcc	%o4, 4, %g0
	be	.L2
	 nop
	srl	%o0, %g1, %g1
	b,a	.L3
.L6:
	sethi	%hi(crc32_context), %g1
	st	%o5, [%g1+%lo(crc32_context)]
	.loc 1 30 1
	jmp	%o7+8
	 nop
.LFE104:
	.size	transparent_crc, .-transparent_crc
	.align 4
	.type	func_2, #function
	.proc	0104
func_2:
.LFB107:
	.file 2 "q.c"
	.loc 2 131 1
	.loc 2 141 14
	sethi	%hi(g_9), %g1
	mov	-3, %o5
	st	%o5, [%g1+%lo(g_9)]
	.loc 2 150 8
	ld	[%o0], %g1
	cmp	%g1, 0
	bne	.L8
	 nop
	.loc 2 160 50
	sethi	%hi(g_59), %o5
	sethi	%hi(29696), %g1
	or	%g1, 588, %g1
	sth	%g1, [%o5+%lo(g_59)]
	.loc 2 163 10
	sethi	%hi(g_11), %o5
	ld	[%o5+%lo(g_11)], %g1
	xor	%g1, 1, %g1
	st	%g1, [%o5+%lo(g_11)]
.L8:
	.loc 2 165 1
	jmp	%o7+8
	 nop
.LFE107:
	.size	func_2, .-func_2
	.align 4
	.type	next_word, #function
	.proc	017
next_word:
.LFB109:
	.loc 2 227 41
	save	%sp, -96, %sp
	mov	%i0, %o5
	mov	%i1, %i2
	.loc 2 227 68
	mov	0, %i4
	.loc 2 227 52
	mov	0, %i0
	mov	0, %i1
.L11:
	.file 3 "."
	.loc 3 24 5
#APP
! 24 "." 1
	ta 1
! 0 "" 2
#NO_APP
	.loc 2 227 107
	cmp	%o0, 0
	bl	.L12
	 nop
	.loc 2 227 133 discriminator 3
	srl	%i1, 24, %i3
	sll	%i0, 8, %i5
	sll	%i1, 8, %g1
	.loc 2 227 129 discriminator 3
	or	%i3, %i5, %i0
	or	%o0, %g1, %i1
	.loc 2 227 83 discriminator 3
	add	%i4, 1, %i4
	.loc 2 227 77 discriminator 3
	cmp	%i4, 7
	ble	.L11
	 nop
	restore
	jmp	%o7+8
	 nop
.L12:
	.loc 2 227 122
	mov	%o5, %i0
	mov	%i2, %i1
	.loc 2 227 165
	restore
	jmp	%o7+8
	 nop
.LFE109:
	.size	next_word, .-next_word
	.global __udivdi3
	.section	.rodata.str1.8,"aMS",@progbits,1
	.align 8
.LC2:
	.asciz	"g_9"
	.align 8
.LC3:
	.asciz	"g_11"
	.align 8
.LC4:
	.asciz	"g_18"
	.align 8
.LC5:
	.asciz	"g_41"
	.align 8
.LC6:
	.asciz	"g_59"
	.align 8
.LC7:
	.asciz	"g_88"
	.align 8
.LC8:
	.asciz	"g_98"
	.align 8
.LC9:
	.asciz	"g_106"
	.align 8
.LC10:
	.asciz	"g_112[i][j]"
	.align 8
.LC11:
	.asciz	"g_117"
	.align 8
.LC12:
	.asciz	"g_155"
	.align 8
.LC13:
	.asciz	"g_158"
	.align 8
.LC14:
	.asciz	"0123456789abcdef"
	.section	".text"
	.align 4
	.global main
	.type	main, #function
	.proc	04
main:
.LFB110:
	.loc 2 229 1
	save	%sp, -104, %sp
	.loc 2 230 21
	sethi	%hi(g_9), %i4
	mov	0, %o0
	ld	[%i4+%lo(g_9)], %o1
	call	next_word, 0
	 nop
	mov	%o1, %i5
	.loc 2 230 11
	st	%o1, [%i4+%lo(g_9)]
	.loc 2 231 21
	sethi	%hi(g_11), %g1
	ld	[%g1+%lo(g_11)], %o1
	sra	%o1, 31, %o0
	call	next_word, 0
	 nop
	mov	%o1, %i0
	.loc 2 232 21
	sethi	%hi(g_18), %i4
	ld	[%i4+%lo(g_18)], %o1
	sra	%o1, 31, %o0
	call	next_word, 0
	 nop
	.loc 2 232 12
	st	%o1, [%i4+%lo(g_18)]
	.loc 2 233 21
	sethi	%hi(g_59), %i4
	lduh	[%i4+%lo(g_59)], %g1
	sll	%g1, 16, %g1
	sra	%g1, 31, %o0
	sra	%g1, 16, %o1
	call	next_word, 0
	 nop
	.loc 2 233 12
	sth	%o1, [%i4+%lo(g_59)]
	.loc 2 234 12
	sethi	%hi(g_88), %i4
	.loc 2 234 22
	ldd	[%i4+%lo(g_88)], %o0
	call	next_word, 0
	 nop
	mov	%o0, %i2
	mov	%o1, %i3
	.loc 2 234 10
	std	%i2, [%i4+%lo(g_88)]
	.loc 2 235 21
	sethi	%hi(g_98), %i4
	mov	0, %o0
	ldub	[%i4+%lo(g_98)], %o1
	call	next_word, 0
	 nop
	.loc 2 235 12
	stb	%o1, [%i4+%lo(g_98)]
	.loc 2 236 22
	sethi	%hi(g_106), %i4
	ldd	[%i4+%lo(g_106)], %o0
	call	next_word, 0
	 nop
	.loc 2 236 11
	std	%o0, [%i4+%lo(g_106)]
	.loc 2 237 23
	sethi	%hi(g_117), %i4
	mov	0, %o0
	lduh	[%i4+%lo(g_117)], %o1
	call	next_word, 0
	 nop
	mov	%o1, %l0
	.loc 2 237 13
	sth	%o1, [%i4+%lo(g_117)]
	.loc 2 238 23
	sethi	%hi(g_155), %i1
	mov	0, %o0
	ld	[%i1+%lo(g_155)], %o1
	call	next_word, 0
	 nop
	mov	%o1, %i4
	.loc 2 238 11
	st	%o1, [%i1+%lo(g_155)]
	.loc 2 239 21
	sethi	%hi(g_158), %l1
	ldub	[%l1+%lo(g_158)], %g1
	sll	%g1, 24, %g1
	sra	%g1, 31, %o0
	sra	%g1, 24, %o1
	call	next_word, 0
	 nop
	mov	%o1, %i1
	.loc 2 239 11
	stb	%o1, [%l1+%lo(g_158)]
	.loc 2 182 24
	sethi	%hi(1626858496), %g1
	or	%g1, 816, %g1
	st	%g1, [%fp-8]
	st	%g1, [%fp-4]
	.loc 2 184 8
	and	%i5, 0xff, %i5
	cmp	%i5, 6
	be	.L26
	 nop
	.loc 2 198 48
	sethi	%hi(g_25), %g1
	add	%fp, -8, %i5
	st	%i5, [%g1+%lo(g_25)]
	.loc 2 198 17
	and	%i0, 1, %i0
	sethi	%hi(g_11), %g1
	st	%i0, [%g1+%lo(g_11)]
.L16:
	.loc 2 219 14
	sethi	%hi(g_25), %g1
	ld	[%g1+%lo(g_25)], %g1
	mov	7, %i5
	st	%i5, [%g1]
	.loc 2 61 15
	sethi	%hi(g_18), %o0
	or	%o0, %lo(g_18), %o0
	call	func_2, 0
	 nop
	.loc 2 62 15
	call	func_2, 0
	 nop
	.loc 2 63 10
	ld	[%o0], %o3
	.loc 2 63 8
	cmp	%o3, 0
	be	.L17
	 nop
	.loc 2 82 60
	addcc	%i3, -1, %l3
	addx	%i2, -1, %l2
	.loc 2 82 116
	sethi	%hi(g_59), %g1
	ldsh	[%g1+%lo(g_59)], %g1
	mov	0, %o1
	cmp	%g1, 0
	be	.L18
	 nop
	sll	%o3, 24, %g1
	sra	%g1, 24, %g1
	xor	%g1, 1, %g1
	cmp	%g0, %g1
	addx	%g0, 0, %o1
.L18:
	.file 4 "/usr/include/csmith/safe_math.h"
	.loc 4 892 22
	sra	%o3, 31, %o2
	mov	0, %o0
	call	__udivdi3, 0
	 nop
	.loc 2 82 80
	sra	%o1, 31, %i5
	.loc 2 82 71
	mov	1, %g1
	cmp	%l2, %i5
	bgu	.L20
	 nop
	bne	.L19
	 nop
	cmp	%l3, %o1
	bleu	.L19
	 nop
.L20:
	mov	0, %g1
.L19:
	mov	%g1, %i5
	.loc 2 82 21
	sethi	%hi(g_98), %i3
	stb	%g1, [%i3+%lo(g_98)]
	sethi	%hi(g_18), %i3
	ld	[%i3+%lo(g_18)], %i3
	.loc 4 609 23
	cmp	%i3, 31
	bgu	.L21
	 nop
	.loc 4 608 45
	and	%g1, 0xff, %g1
	.loc 4 608 58
	mov	255, %i2
	sra	%i2, %i3, %i2
	.loc 4 608 36
	cmp	%g1, %i2
	bg	.L21
	 nop
	.loc 4 609 23
	sll	%g1, %i3, %i5
.L21:
	.loc 2 82 21
	and	%i5, 0xff, %i5
	.loc 2 82 303
	sethi	%hi(g_9), %g1
	ld	[%g1+%lo(g_9)], %g1
	cmp	%g1, %i5
	addx	%g0, 0, %i5
	.loc 2 82 17
	sethi	%hi(g_11), %g1
	st	%i5, [%g1+%lo(g_11)]
	.loc 2 83 19
	sethi	%hi(g_88), %g1
	st	%g0, [%g1+%lo(g_88)]
	st	%g0, [%g1+%lo(g_88+4)]
	.loc 2 111 9
	add	%i4, 1, %i4
	sethi	%hi(g_155), %g1
	st	%i4, [%g1+%lo(g_155)]
.L17:
	.loc 2 246 5
	mov	0, %o3
	sethi	%hi(.LC2), %o2
	or	%o2, %lo(.LC2), %o2
	mov	0, %o0
	sethi	%hi(g_9), %g1
	ld	[%g1+%lo(g_9)], %o1
	call	transparent_crc, 0
	 nop
	.loc 2 247 5
	sethi	%hi(g_11), %g1
	ld	[%g1+%lo(g_11)], %o1
	mov	0, %o3
	sethi	%hi(.LC3), %o2
	or	%o2, %lo(.LC3), %o2
	sra	%o1, 31, %o0
	call	transparent_crc, 0
	 nop
	.loc 2 248 5
	sethi	%hi(g_18), %g1
	ld	[%g1+%lo(g_18)], %o1
	mov	0, %o3
	sethi	%hi(.LC4), %o2
	or	%o2, %lo(.LC4), %o2
	sra	%o1, 31, %o0
	call	transparent_crc, 0
	 nop
	.loc 2 249 5
	mov	0, %o3
	sethi	%hi(.LC5), %o2
	or	%o2, %lo(.LC5), %o2
	mov	0, %o0
	mov	5, %o1
	call	transparent_crc, 0
	 nop
	.loc 2 250 5
	sethi	%hi(g_59), %g1
	lduh	[%g1+%lo(g_59)], %o1
	sll	%o1, 16, %o1
	mov	0, %o3
	sethi	%hi(.LC6), %o2
	or	%o2, %lo(.LC6), %o2
	sra	%o1, 31, %o0
	sra	%o1, 16, %o1
	call	transparent_crc, 0
	 nop
	.loc 2 251 5
	mov	0, %o3
	sethi	%hi(.LC7), %o2
	or	%o2, %lo(.LC7), %o2
	sethi	%hi(g_88), %g1
	ldd	[%g1+%lo(g_88)], %o0
	call	transparent_crc, 0
	 nop
	.loc 2 252 5
	mov	0, %o3
	sethi	%hi(.LC8), %o2
	or	%o2, %lo(.LC8), %o2
	mov	0, %o0
	sethi	%hi(g_98), %g1
	ldub	[%g1+%lo(g_98)], %o1
	call	transparent_crc, 0
	 nop
	.loc 2 253 5
	mov	0, %o3
	sethi	%hi(.LC9), %o2
	or	%o2, %lo(.LC9), %o2
	sethi	%hi(g_106), %g1
	ldd	[%g1+%lo(g_106)], %o0
	call	transparent_crc, 0
	 nop
	.loc 2 254 12
	mov	0, %i2
	.loc 2 258 37
	sethi	%hi(g_112), %i0
	or	%i0, %lo(g_112), %i0
	.loc 2 258 13
	sethi	%hi(.LC10), %i3
	or	%i3, %lo(.LC10), %i3
.L22:
	.loc 2 256 16
	mov	0, %i5
	.loc 2 258 37
	sll	%i2, 2, %i4
	add	%i4, %i2, %i4
	add	%i0, %i4, %i4
.L23:
	.loc 2 258 13
	mov	0, %o3
	mov	%i3, %o2
	mov	0, %o0
	ldub	[%i4+%i5], %o1
	call	transparent_crc, 0
	 nop
	.loc 2 256 29
	add	%i5, 1, %i5
	.loc 2 256 23
	cmp	%i5, 4
	ble	.L23
	 nop
	.loc 2 254 25 discriminator 2
	add	%i2, 1, %i2
	.loc 2 254 19 discriminator 2
	cmp	%i2, 2
	ble	.L22
	 nop
	.loc 2 263 5
	mov	0, %o3
	sethi	%hi(.LC11), %o2
	or	%o2, %lo(.LC11), %o2
	mov	0, %o0
	sethi	%hi(64512), %o1
	or	%o1, 1023, %o1
	and	%l0, %o1, %o1
	call	transparent_crc, 0
	 nop
	.loc 2 264 5
	mov	0, %o3
	sethi	%hi(.LC12), %o2
	or	%o2, %lo(.LC12), %o2
	mov	0, %o0
	sethi	%hi(g_155), %g1
	ld	[%g1+%lo(g_155)], %o1
	call	transparent_crc, 0
	 nop
	.loc 2 265 5
	sll	%i1, 24, %o1
	mov	0, %o3
	sethi	%hi(.LC13), %o2
	or	%o2, %lo(.LC13), %o2
	sra	%o1, 31, %o0
	sra	%o1, 24, %o1
	call	transparent_crc, 0
	 nop
	.loc 2 266 5
	sethi	%hi(crc32_context), %g1
	ld	[%g1+%lo(crc32_context)], %i3
	xnor	%g0, %i3, %i3
	.loc 1 33 14
	mov	28, %g1
	.loc 1 33 60
	sethi	%hi(.LC14), %i4
	or	%i4, %lo(.LC14), %i4
.L25:
	.loc 1 33 63
	srl	%i3, %g1, %i5
	.loc 1 33 68
	and	%i5, 15, %i5
	.loc 1 33 38
	ldsb	[%i4+%i5], %o0
	.loc 3 31 5
#APP
! 31 "." 1
	ta 2
! 0 "" 2
#NO_APP
	.loc 1 33 24
	addcc	%g1, -4, %g1
	bpos	.L25
	 nop
	.loc 3 30 18
	mov	10, %o0
	.loc 3 31 5
#APP
! 31 "." 1
	ta 2
! 0 "" 2
#NO_APP
	.loc 2 268 1
	mov	0, %i0
	restore
	jmp	%o7+8
	 nop
.L26:
	.loc 2 203 29
	mov	27, %g1
.L15:
	.loc 2 203 40
	add	%g1, 1, %g1
	.loc 2 203 29
	cmp	%g1, 53
	bne	.L15
	 nop
	sethi	%hi(g_11), %g1
	mov	18, %i5
	st	%i5, [%g1+%lo(g_11)]
	sethi	%hi(g_9), %g1
	mov	53, %i5
	st	%i5, [%g1+%lo(g_9)]
	b,a	.L16
.LFE110:
	.size	main, .-main
	.section	".data"
	.type	g_158, #object
	.size	g_158, 1
g_158:
	.byte	1
	.align 4
	.type	g_155, #object
	.size	g_155, 4
g_155:
	.long	-391024469
	.align 2
	.type	g_117, #object
	.size	g_117, 2
g_117:
	.half	8229
	.section	".rodata"
	.type	g_112, #object
	.size	g_112, 15
g_112:
	.ascii	"\004\004\004\004\004"
	.ascii	"]]]]]"
	.ascii	"\004\004\004\004\004"
	.section	".data"
	.align 8
	.type	g_106, #object
	.size	g_106, 8
g_106:
	.long	1907665990
	.long	-368585421
	.type	g_98, #object
	.size	g_98, 1
g_98:
	.byte	-110
	.local	g_88
	.common	g_88,8,8
	.align 2
	.type	g_59, #object
	.size	g_59, 2
g_59:
	.half	-2
	.align 4
	.type	g_25, #object
	.size	g_25, 4
g_25:
	.long	g_11
	.align 4
	.type	g_18, #object
	.size	g_18, 4
g_18:
	.long	6
	.align 4
	.type	g_11, #object
	.size	g_11, 4
g_11:
	.long	-1385716546
	.align 4
	.type	g_9, #object
	.size	g_9, 4
g_9:
	.long	-1
	.align 4
	.type	crc32_context, #object
	.size	crc32_context, 4
crc32_context:
	.long	-1
	.section	".text"
.Letext0:
