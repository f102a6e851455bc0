	.file	"sha256.c"
	.section	".text"
.Ltext0:
	.cfi_sections	.debug_frame
	.file 0 "." "sha256.c"
	.section	".rodata"
	.align 8
.LC0:
	.long	1779033703
	.long	-1150833019
	.long	1013904242
	.long	-1521486534
	.long	1359893119
	.long	-1694144372
	.long	528734635
	.long	1541459225
	.asciz	""
	.asciz	""
	.skip	62
	.long	0
	.skip	4
	.long	0
	.long	0
	.section	.rodata.str1.8,"aMS",@progbits,1
	.align 8
.LC1:
	.asciz	"0123456789abcdef"
	.section	.text.startup,"ax",@progbits
	.align 4
	.global main
	.type	main, #function
	.proc	04
main:
.LFB17:
	.file 1 "sha256.c"
	.loc 1 33 16
	.cfi_startproc
	save	%sp, -496, %sp
	.cfi_window_save
	.cfi_register 15, 31
	.cfi_def_cfa_register 30
	.loc 1 34 16
	mov	112, %o2
	sethi	%hi(.LC0), %o1
	or	%o1, %lo(.LC0), %o1
	add	%fp, -368, %o0
	call	memcpy, 0
	 nop
.LBB198:
.LBB199:
	.file 2 "runtime/plug.h"
	.loc 2 24 5
#APP
! 24 "runtime/plug.h" 1
	ta 1
! 0 "" 2
#NO_APP
	ld	[%fp-272], %g1
.LBE199:
.LBE198:
	.loc 1 36 24
	cmp	%o0, 0
	bl	.L2
	 nop
	ld	[%fp-272], %g1
	ldd	[%fp-264], %i2
.LBB202:
.LBB203:
.LBB204:
.LBB205:
.LBB206:
.LBB207:
.LBB208:
.LBB209:
	.loc 1 20 23
	sethi	%hi(1116351488), %o4
	or	%o4, 920, %o4
	.loc 1 21 95
	sethi	%hi(K), %o5
	or	%o5, %lo(K), %o5
	b,a	.L12
.L3:
.LBE209:
.LBE208:
.LBE207:
.LBE206:
.LBE205:
.LBE204:
.LBE203:
.LBE202:
	.loc 1 36 51
	addcc	%i3, 8, %i3
	addx	%i2, 0, %i2
	std	%i2, [%fp-264]
.LBB246:
.LBB200:
	.loc 2 24 5
#APP
! 24 "runtime/plug.h" 1
	ta 1
! 0 "" 2
#NO_APP
.LBE200:
.LBE246:
	.loc 1 36 24
	cmp	%o0, 0
	bl	.L2
	 nop
.L12:
.LBB247:
.LBB244:
	.loc 1 29 13 discriminator 2
	mov	%g1, %i5
	.loc 1 29 19 discriminator 2
	add	%g1, 1, %g1
	st	%g1, [%fp-272]
	.loc 1 29 23 discriminator 2
	add	%fp, %i5, %i5
.LBE244:
.LBE247:
	.loc 1 36 32 discriminator 2
	stb	%o0, [%i5-336]
.LBB248:
.LBB245:
	.loc 1 30 8 discriminator 2
	cmp	%g1, 64
	bne	.L3
	 nop
.LBB243:
.LBB242:
.LBB241:
.LBB240:
.LBB226:
	.loc 1 12 14
	mov	0, %i5
.L4:
	.loc 1 13 29
	sll	%i5, 2, %i4
	.loc 1 13 14
	add	%fp, %i4, %i4
	.loc 1 13 16
	ldub	[%i4-336], %g1
	.loc 1 13 33
	sll	%g1, 24, %g1
	.loc 1 13 100
	ldub	[%i4-333], %i1
	.loc 1 13 92
	or	%g1, %i1, %g1
	.loc 1 13 41
	ldub	[%i4-335], %i1
	.loc 1 13 60
	sll	%i1, 16, %i1
	.loc 1 13 92
	or	%g1, %i1, %g1
	.loc 1 13 68
	ldub	[%i4-334], %i1
	.loc 1 13 87
	sll	%i1, 8, %i1
	.loc 1 13 92
	or	%g1, %i1, %g1
	.loc 1 13 14
	st	%g1, [%i4-256]
	.loc 1 12 30
	add	%i5, 1, %i5
	.loc 1 12 23
	cmp	%i5, 16
	bne	.L4
	 nop
.L5:
.LBE226:
.LBB227:
.LBB228:
	.loc 1 15 17
	add	%i5, -15, %g1
	sll	%g1, 2, %g1
	add	%fp, %g1, %g1
	ld	[%g1-256], %i4
	.loc 1 15 72
	add	%i5, -2, %g1
	sll	%g1, 2, %g1
	add	%fp, %g1, %g1
	ld	[%g1-256], %i1
	.loc 1 16 14
	sll	%i5, 2, %i0
	add	%fp, %i0, %i0
.LBB229:
.LBB230:
	.loc 1 9 46
	srl	%i4, 7, %g1
	sll	%i4, 25, %o3
	or	%g1, %o3, %g1
.LBE230:
.LBE229:
.LBB231:
.LBB232:
	sll	%i4, 14, %o3
	srl	%i4, 18, %o2
	or	%o3, %o2, %o3
.LBE232:
.LBE231:
	.loc 1 15 33
	xor	%g1, %o3, %g1
	.loc 1 15 62
	srl	%i4, 3, %i4
	.loc 1 15 13
	xor	%g1, %i4, %g1
	.loc 1 16 17
	add	%i5, -16, %o3
	sll	%o3, 2, %o3
	add	%fp, %o3, %o3
	.loc 1 16 31
	add	%i5, -7, %i4
	sll	%i4, 2, %i4
	add	%fp, %i4, %i4
	.loc 1 16 28
	ld	[%o3-256], %o3
	ld	[%i4-256], %i4
	add	%o3, %i4, %i4
	add	%g1, %i4, %g1
.LBB233:
.LBB234:
	.loc 1 9 46
	sll	%i1, 15, %i4
	srl	%i1, 17, %o3
	or	%i4, %o3, %i4
.LBE234:
.LBE233:
.LBB235:
.LBB236:
	sll	%i1, 13, %o3
	srl	%i1, 19, %o2
	or	%o3, %o2, %o3
.LBE236:
.LBE235:
	.loc 1 15 88
	xor	%i4, %o3, %i4
	.loc 1 15 115
	srl	%i1, 10, %i1
	.loc 1 15 68
	xor	%i4, %i1, %i4
	.loc 1 16 37
	add	%g1, %i4, %g1
	.loc 1 16 14
	st	%g1, [%i0-256]
.LBE228:
	.loc 1 14 31
	add	%i5, 1, %i5
	.loc 1 14 24
	cmp	%i5, 64
	bne	.L5
	 nop
.LBE227:
.LBB237:
	.loc 1 18 14
	mov	0, %i5
.L6:
	.loc 1 18 38
	sll	%i5, 2, %g1
	add	%fp, %g1, %g1
	ld	[%g1-368], %i4
	st	%i4, [%g1-400]
	.loc 1 18 29
	add	%i5, 1, %i5
	.loc 1 18 23
	cmp	%i5, 8
	bne	.L6
	 nop
.LBE237:
.LBB238:
.LBB223:
	.loc 1 20 13
	ld	[%fp-384], %g1
	.loc 1 20 23
	ld	[%fp-400], %o2
	mov	%o4, %o1
.LBE223:
	.loc 1 19 14
	mov	0, %o3
	mov	0, %i0
.L10:
.LBB224:
	.loc 1 21 86
	ld	[%fp-376], %i4
.LBB210:
.LBB211:
	.loc 1 9 46
	srl	%g1, 6, %i1
	sll	%g1, 26, %i5
	or	%i1, %i5, %i1
.LBE211:
.LBE210:
.LBB212:
.LBB213:
	srl	%g1, 11, %i5
	sll	%g1, 21, %o0
	or	%i5, %o0, %i5
.LBE213:
.LBE212:
	.loc 1 21 36
	xor	%i1, %i5, %i1
.LBB214:
.LBB215:
	.loc 1 9 46
	sll	%g1, 7, %i5
	srl	%g1, 25, %o0
	or	%i5, %o0, %i5
.LBE215:
.LBE214:
	.loc 1 21 49
	xor	%i1, %i5, %i1
	.loc 1 21 13
	ld	[%fp-372], %i5
	add	%o1, %i5, %i5
	.loc 1 21 102
	add	%fp, %i0, %i0
	.loc 1 21 13
	ld	[%i0-256], %i0
	add	%i5, %i0, %i5
	add	%i1, %i5, %i1
	.loc 1 21 69
	ld	[%fp-380], %i5
	and	%g1, %i5, %i5
	.loc 1 21 83
	andn	%i4, %g1, %g1
	.loc 1 21 77
	xor	%i5, %g1, %g1
	.loc 1 21 13
	add	%i1, %g1, %i1
	.loc 1 22 65
	ld	[%fp-396], %i5
	.loc 1 22 78
	ld	[%fp-392], %o1
.LBB216:
.LBB217:
	.loc 1 9 46
	srl	%o2, 2, %i0
	sll	%o2, 30, %g1
	or	%i0, %g1, %i0
.LBE217:
.LBE216:
.LBB218:
.LBB219:
	srl	%o2, 13, %g1
	sll	%o2, 19, %o0
	or	%g1, %o0, %g1
.LBE219:
.LBE218:
	.loc 1 22 29
	xor	%i0, %g1, %i0
.LBB220:
.LBB221:
	.loc 1 9 46
	sll	%o2, 10, %g1
	srl	%o2, 22, %o0
	or	%g1, %o0, %g1
.LBE221:
.LBE220:
	.loc 1 22 42
	xor	%i0, %g1, %i0
	.loc 1 22 70
	xor	%i5, %o1, %g1
	and	%g1, %o2, %g1
	.loc 1 22 91
	and	%i5, %o1, %i5
	.loc 1 22 83
	xor	%g1, %i5, %g1
	.loc 1 22 13
	add	%i0, %g1, %i0
.LBB222:
	.loc 1 23 18
	mov	7, %g1
	b,a	.L8
.L76:
	.loc 1 23 45
	add	%g1, -2, %g1
	sll	%g1, 2, %g1
	add	%fp, %g1, %g1
	ld	[%g1-400], %i4
	.loc 1 23 33
	mov	%i5, %g1
.L8:
	.loc 1 23 42
	sll	%g1, 2, %i5
	add	%fp, %i5, %i5
	st	%i4, [%i5-400]
	.loc 1 23 27
	addcc	%g1, -1, %i5
	bne	.L76
	 nop
.LBE222:
	.loc 1 24 14
	ld	[%fp-384], %g1
	add	%i1, %g1, %g1
	st	%g1, [%fp-384]
	.loc 1 24 31
	add	%i1, %i0, %o2
	.loc 1 24 26
	st	%o2, [%fp-400]
.LBE224:
	.loc 1 19 30
	add	%o3, 1, %o3
	.loc 1 19 23
	cmp	%o3, 64
	be	.L77
	 nop
.LBB225:
	.loc 1 21 95
	sll	%o3, 2, %i0
	ld	[%o5+%i0], %o1
	b,a	.L10
.L77:
	mov	0, %g1
	b,a	.L9
.L78:
.LBE225:
.LBE238:
.LBB239:
	.loc 1 26 45
	sll	%i5, 2, %g1
	add	%fp, %g1, %i4
	ld	[%i4-400], %o2
.L9:
	.loc 1 26 41
	add	%fp, %g1, %g1
	ld	[%g1-368], %i4
	add	%i4, %o2, %i4
	st	%i4, [%g1-368]
	.loc 1 26 29
	add	%i5, 1, %i5
	.loc 1 26 23
	cmp	%i5, 8
	bne	.L78
	 nop
.LBE239:
.LBE240:
.LBE241:
	.loc 1 30 44
	st	%g0, [%fp-272]
	mov	0, %g1
.LBE242:
.LBE243:
.LBE245:
.LBE248:
	.loc 1 36 51
	addcc	%i3, 8, %i3
	addx	%i2, 0, %i2
	std	%i2, [%fp-264]
.LBB249:
.LBB201:
	.loc 2 24 5
#APP
! 24 "runtime/plug.h" 1
	ta 1
! 0 "" 2
#NO_APP
.LBE201:
.LBE249:
	.loc 1 36 24
	cmp	%o0, 0
	bge	.L12
	 nop
.L2:
	.loc 1 37 24
	ld	[%fp-264], %i1
	ld	[%fp-260], %i0
.LBB250:
.LBB251:
	.loc 1 29 19
	add	%g1, 1, %o3
	.loc 1 29 23
	add	%fp, %g1, %i5
	mov	-128, %i4
	stb	%i4, [%i5-336]
	.loc 1 30 8
	cmp	%g1, 63
	be	.L79
	 nop
.L13:
.LBE251:
.LBE250:
.LBB285:
.LBB286:
.LBB287:
.LBB288:
.LBB289:
.LBB290:
.LBB291:
.LBB292:
.LBB293:
	.loc 1 23 18 discriminator 1
	mov	%o3, %g1
	mov	0, %i5
.LBE293:
	.loc 1 20 23 discriminator 1
	sethi	%hi(1116351488), %o2
	or	%o2, 920, %o2
	.loc 1 21 95 discriminator 1
	sethi	%hi(K), %o4
	or	%o4, %lo(K), %o4
.LBE292:
.LBE291:
.LBE290:
.LBE289:
.LBE288:
.LBE287:
.LBE286:
.LBE285:
	.loc 1 39 19 discriminator 1
	cmp	%g1, 56
	be	.L80
	 nop
.L31:
.LBB330:
.LBB328:
	.loc 1 29 19
	add	%g1, 1, %i4
	.loc 1 29 23
	add	%fp, %g1, %i5
	stb	%g0, [%i5-336]
	mov	1, %i5
	.loc 1 30 8
	cmp	%g1, 63
	be	.L81
	 nop
	.loc 1 29 19
	mov	%i4, %g1
.LBE328:
.LBE330:
	.loc 1 39 19
	cmp	%g1, 56
	bne	.L31
	 nop
.L80:
	andcc	%i5, 0xff, %g0
	be	.L82
	 nop
.L32:
.LBB331:
	.loc 1 40 14
	mov	56, %o3
	.loc 1 40 51
	sll	%i1, 1, %o1
.LBB332:
.LBB333:
.LBB334:
.LBB335:
.LBB336:
.LBB337:
.LBB338:
.LBB339:
	.loc 1 20 23
	sethi	%hi(1116351488), %o2
	or	%o2, 920, %o2
	.loc 1 21 95
	sethi	%hi(K), %o4
	or	%o4, %lo(K), %o4
	b,a	.L44
.L35:
.LBE339:
.LBE338:
.LBE337:
.LBE336:
.LBE335:
.LBE334:
.LBE333:
.LBE332:
	.loc 1 40 24
	addcc	%o3, -8, %o3
	bneg	.L83
	 nop
.L44:
.LBB381:
.LBB378:
	.loc 1 29 19 discriminator 3
	add	%g1, 1, %i4
	.loc 1 29 23 discriminator 3
	add	%fp, %g1, %g1
.LBE378:
.LBE381:
	.loc 1 40 51 discriminator 3
	srl	%i1, %o3, %i5
	andcc	%o3, 32, %g0
	bne	.L34
	 nop
	xnor	%g0, %o3, %i3
	sll	%o1, %i3, %i3
	srl	%i0, %o3, %i5
	or	%i3, %i5, %i5
.L34:
	.loc 1 40 38 discriminator 3
	stb	%i5, [%g1-336]
.LBB382:
.LBB379:
	.loc 1 29 19 discriminator 3
	mov	%i4, %g1
	.loc 1 30 8 discriminator 3
	cmp	%i4, 64
	bne	.L35
	 nop
.LBB376:
.LBB374:
.LBB372:
.LBB370:
.LBB356:
	.loc 1 12 14
	mov	0, %i5
.L36:
	.loc 1 13 29
	sll	%i5, 2, %i4
	.loc 1 13 14
	add	%fp, %i4, %i4
	.loc 1 13 16
	ldub	[%i4-336], %g1
	.loc 1 13 33
	sll	%g1, 24, %g1
	.loc 1 13 100
	ldub	[%i4-333], %i3
	.loc 1 13 92
	or	%g1, %i3, %g1
	.loc 1 13 41
	ldub	[%i4-335], %i3
	.loc 1 13 60
	sll	%i3, 16, %i3
	.loc 1 13 92
	or	%g1, %i3, %g1
	.loc 1 13 68
	ldub	[%i4-334], %i3
	.loc 1 13 87
	sll	%i3, 8, %i3
	.loc 1 13 92
	or	%g1, %i3, %g1
	.loc 1 13 14
	st	%g1, [%i4-256]
	.loc 1 12 30
	add	%i5, 1, %i5
	.loc 1 12 23
	cmp	%i5, 16
	bne	.L36
	 nop
.L37:
.LBE356:
.LBB357:
.LBB358:
	.loc 1 15 17
	add	%i5, -15, %g1
	sll	%g1, 2, %g1
	add	%fp, %g1, %g1
	ld	[%g1-256], %i4
	.loc 1 15 72
	add	%i5, -2, %g1
	sll	%g1, 2, %g1
	add	%fp, %g1, %g1
	ld	[%g1-256], %i3
	.loc 1 16 14
	sll	%i5, 2, %i2
	add	%fp, %i2, %i2
.LBB359:
.LBB360:
	.loc 1 9 46
	srl	%i4, 7, %g1
	sll	%i4, 25, %o5
	or	%g1, %o5, %g1
.LBE360:
.LBE359:
.LBB361:
.LBB362:
	sll	%i4, 14, %o5
	srl	%i4, 18, %o0
	or	%o5, %o0, %o5
.LBE362:
.LBE361:
	.loc 1 15 33
	xor	%g1, %o5, %g1
	.loc 1 15 62
	srl	%i4, 3, %i4
	.loc 1 15 13
	xor	%g1, %i4, %g1
	.loc 1 16 17
	add	%i5, -16, %o5
	sll	%o5, 2, %o5
	add	%fp, %o5, %o5
	.loc 1 16 31
	add	%i5, -7, %i4
	sll	%i4, 2, %i4
	add	%fp, %i4, %i4
	.loc 1 16 28
	ld	[%o5-256], %o5
	ld	[%i4-256], %i4
	add	%o5, %i4, %i4
	add	%g1, %i4, %g1
.LBB363:
.LBB364:
	.loc 1 9 46
	sll	%i3, 15, %i4
	srl	%i3, 17, %o5
	or	%i4, %o5, %i4
.LBE364:
.LBE363:
.LBB365:
.LBB366:
	sll	%i3, 13, %o5
	srl	%i3, 19, %o0
	or	%o5, %o0, %o5
.LBE366:
.LBE365:
	.loc 1 15 88
	xor	%i4, %o5, %i4
	.loc 1 15 115
	srl	%i3, 10, %i3
	.loc 1 15 68
	xor	%i4, %i3, %i4
	.loc 1 16 37
	add	%g1, %i4, %g1
	.loc 1 16 14
	st	%g1, [%i2-256]
.LBE358:
	.loc 1 14 31
	add	%i5, 1, %i5
	.loc 1 14 24
	cmp	%i5, 64
	bne	.L37
	 nop
.LBE357:
.LBB367:
	.loc 1 18 14
	mov	0, %i5
.L38:
	.loc 1 18 38
	sll	%i5, 2, %g1
	add	%fp, %g1, %g1
	ld	[%g1-368], %i4
	st	%i4, [%g1-400]
	.loc 1 18 29
	add	%i5, 1, %i5
	.loc 1 18 23
	cmp	%i5, 8
	bne	.L38
	 nop
.LBE367:
.LBB368:
.LBB353:
	.loc 1 20 13
	ld	[%fp-384], %g1
	.loc 1 20 23
	ld	[%fp-400], %o0
	mov	%o2, %l0
.LBE353:
	.loc 1 19 14
	mov	0, %o5
	mov	0, %i2
.L42:
.LBB354:
	.loc 1 21 86
	ld	[%fp-376], %i4
.LBB340:
.LBB341:
	.loc 1 9 46
	srl	%g1, 6, %i3
	sll	%g1, 26, %i5
	or	%i3, %i5, %i3
.LBE341:
.LBE340:
.LBB342:
.LBB343:
	srl	%g1, 11, %i5
	sll	%g1, 21, %l1
	or	%i5, %l1, %i5
.LBE343:
.LBE342:
	.loc 1 21 36
	xor	%i3, %i5, %i3
.LBB344:
.LBB345:
	.loc 1 9 46
	sll	%g1, 7, %i5
	srl	%g1, 25, %l1
	or	%i5, %l1, %i5
.LBE345:
.LBE344:
	.loc 1 21 49
	xor	%i3, %i5, %i3
	.loc 1 21 13
	ld	[%fp-372], %i5
	add	%l0, %i5, %i5
	.loc 1 21 102
	add	%fp, %i2, %i2
	.loc 1 21 13
	ld	[%i2-256], %i2
	add	%i5, %i2, %i5
	add	%i3, %i5, %i3
	.loc 1 21 69
	ld	[%fp-380], %i5
	and	%g1, %i5, %i5
	.loc 1 21 83
	andn	%i4, %g1, %g1
	.loc 1 21 77
	xor	%i5, %g1, %g1
	.loc 1 21 13
	add	%i3, %g1, %i3
	.loc 1 22 65
	ld	[%fp-396], %i5
	.loc 1 22 78
	ld	[%fp-392], %l0
.LBB346:
.LBB347:
	.loc 1 9 46
	srl	%o0, 2, %i2
	sll	%o0, 30, %g1
	or	%i2, %g1, %i2
.LBE347:
.LBE346:
.LBB348:
.LBB349:
	srl	%o0, 13, %g1
	sll	%o0, 19, %l1
	or	%g1, %l1, %g1
.LBE349:
.LBE348:
	.loc 1 22 29
	xor	%i2, %g1, %i2
.LBB350:
.LBB351:
	.loc 1 9 46
	sll	%o0, 10, %g1
	srl	%o0, 22, %l1
	or	%g1, %l1, %g1
.LBE351:
.LBE350:
	.loc 1 22 42
	xor	%i2, %g1, %i2
	.loc 1 22 70
	xor	%i5, %l0, %g1
	and	%g1, %o0, %g1
	.loc 1 22 91
	and	%i5, %l0, %i5
	.loc 1 22 83
	xor	%g1, %i5, %g1
	.loc 1 22 13
	add	%i2, %g1, %i2
.LBB352:
	.loc 1 23 18
	mov	7, %g1
	b,a	.L40
.L84:
	.loc 1 23 45
	add	%g1, -2, %g1
	sll	%g1, 2, %g1
	add	%fp, %g1, %g1
	ld	[%g1-400], %i4
	.loc 1 23 33
	mov	%i5, %g1
.L40:
	.loc 1 23 42
	sll	%g1, 2, %i5
	add	%fp, %i5, %i5
	st	%i4, [%i5-400]
	.loc 1 23 27
	addcc	%g1, -1, %i5
	bne	.L84
	 nop
.LBE352:
	.loc 1 24 14
	ld	[%fp-384], %g1
	add	%i3, %g1, %g1
	st	%g1, [%fp-384]
	.loc 1 24 31
	add	%i3, %i2, %o0
	.loc 1 24 26
	st	%o0, [%fp-400]
.LBE354:
	.loc 1 19 30
	add	%o5, 1, %o5
	.loc 1 19 23
	cmp	%o5, 64
	be	.L85
	 nop
.LBB355:
	.loc 1 21 95
	sll	%o5, 2, %i2
	ld	[%o4+%i2], %l0
	b,a	.L42
.L81:
.LBE355:
.LBE368:
.LBE370:
.LBE372:
.LBE374:
.LBE376:
.LBE379:
.LBE382:
.LBE331:
.LBB384:
.LBB329:
.LBB327:
.LBB326:
.LBB325:
.LBB324:
.LBB310:
	.loc 1 12 14
	mov	0, %i5
.L23:
	.loc 1 13 29
	sll	%i5, 2, %i4
	.loc 1 13 14
	add	%fp, %i4, %i4
	.loc 1 13 16
	ldub	[%i4-336], %g1
	.loc 1 13 33
	sll	%g1, 24, %g1
	.loc 1 13 100
	ldub	[%i4-333], %i3
	.loc 1 13 92
	or	%g1, %i3, %g1
	.loc 1 13 41
	ldub	[%i4-335], %i3
	.loc 1 13 60
	sll	%i3, 16, %i3
	.loc 1 13 92
	or	%g1, %i3, %g1
	.loc 1 13 68
	ldub	[%i4-334], %i3
	.loc 1 13 87
	sll	%i3, 8, %i3
	.loc 1 13 92
	or	%g1, %i3, %g1
	.loc 1 13 14
	st	%g1, [%i4-256]
	.loc 1 12 30
	add	%i5, 1, %i5
	.loc 1 12 23
	cmp	%i5, 16
	bne	.L23
	 nop
.L24:
.LBE310:
.LBB311:
.LBB312:
	.loc 1 15 17
	add	%i5, -15, %g1
	sll	%g1, 2, %g1
	add	%fp, %g1, %g1
	ld	[%g1-256], %i4
	.loc 1 15 72
	add	%i5, -2, %g1
	sll	%g1, 2, %g1
	add	%fp, %g1, %g1
	ld	[%g1-256], %i3
	.loc 1 16 14
	sll	%i5, 2, %i2
	add	%fp, %i2, %i2
.LBB313:
.LBB314:
	.loc 1 9 46
	srl	%i4, 7, %g1
	sll	%i4, 25, %o5
	or	%g1, %o5, %g1
.LBE314:
.LBE313:
.LBB315:
.LBB316:
	sll	%i4, 14, %o5
	srl	%i4, 18, %o1
	or	%o5, %o1, %o5
.LBE316:
.LBE315:
	.loc 1 15 33
	xor	%g1, %o5, %g1
	.loc 1 15 62
	srl	%i4, 3, %i4
	.loc 1 15 13
	xor	%g1, %i4, %g1
	.loc 1 16 17
	add	%i5, -16, %o5
	sll	%o5, 2, %o5
	add	%fp, %o5, %o5
	.loc 1 16 31
	add	%i5, -7, %i4
	sll	%i4, 2, %i4
	add	%fp, %i4, %i4
	.loc 1 16 28
	ld	[%o5-256], %o5
	ld	[%i4-256], %i4
	add	%o5, %i4, %i4
	add	%g1, %i4, %g1
.LBB317:
.LBB318:
	.loc 1 9 46
	sll	%i3, 15, %i4
	srl	%i3, 17, %o5
	or	%i4, %o5, %i4
.LBE318:
.LBE317:
.LBB319:
.LBB320:
	sll	%i3, 13, %o5
	srl	%i3, 19, %o1
	or	%o5, %o1, %o5
.LBE320:
.LBE319:
	.loc 1 15 88
	xor	%i4, %o5, %i4
	.loc 1 15 115
	srl	%i3, 10, %i3
	.loc 1 15 68
	xor	%i4, %i3, %i4
	.loc 1 16 37
	add	%g1, %i4, %g1
	.loc 1 16 14
	st	%g1, [%i2-256]
.LBE312:
	.loc 1 14 31
	add	%i5, 1, %i5
	.loc 1 14 24
	cmp	%i5, 64
	bne	.L24
	 nop
.LBE311:
.LBB321:
	.loc 1 18 14
	mov	0, %i5
.L25:
	.loc 1 18 38
	sll	%i5, 2, %g1
	add	%fp, %g1, %g1
	ld	[%g1-368], %i4
	st	%i4, [%g1-400]
	.loc 1 18 29
	add	%i5, 1, %i5
	.loc 1 18 23
	cmp	%i5, 8
	bne	.L25
	 nop
.LBE321:
.LBB322:
.LBB307:
	.loc 1 20 13
	ld	[%fp-384], %g1
	.loc 1 20 23
	ld	[%fp-400], %o1
	mov	%o2, %l0
.LBE307:
	.loc 1 19 14
	mov	0, %o5
	mov	0, %i2
.L29:
.LBB308:
	.loc 1 21 86
	ld	[%fp-376], %i4
.LBB294:
.LBB295:
	.loc 1 9 46
	srl	%g1, 6, %i3
	sll	%g1, 26, %i5
	or	%i3, %i5, %i3
.LBE295:
.LBE294:
.LBB296:
.LBB297:
	srl	%g1, 11, %i5
	sll	%g1, 21, %o0
	or	%i5, %o0, %i5
.LBE297:
.LBE296:
	.loc 1 21 36
	xor	%i3, %i5, %i3
.LBB298:
.LBB299:
	.loc 1 9 46
	sll	%g1, 7, %i5
	srl	%g1, 25, %o0
	or	%i5, %o0, %i5
.LBE299:
.LBE298:
	.loc 1 21 49
	xor	%i3, %i5, %i3
	.loc 1 21 13
	ld	[%fp-372], %i5
	add	%l0, %i5, %i5
	.loc 1 21 102
	add	%fp, %i2, %i2
	.loc 1 21 13
	ld	[%i2-256], %i2
	add	%i5, %i2, %i5
	add	%i3, %i5, %i3
	.loc 1 21 69
	ld	[%fp-380], %i5
	and	%g1, %i5, %i5
	.loc 1 21 83
	andn	%i4, %g1, %g1
	.loc 1 21 77
	xor	%i5, %g1, %g1
	.loc 1 21 13
	add	%i3, %g1, %i3
	.loc 1 22 65
	ld	[%fp-396], %i5
	.loc 1 22 78
	ld	[%fp-392], %o0
.LBB300:
.LBB301:
	.loc 1 9 46
	srl	%o1, 2, %i2
	sll	%o1, 30, %g1
	or	%i2, %g1, %i2
.LBE301:
.LBE300:
.LBB302:
.LBB303:
	srl	%o1, 13, %g1
	sll	%o1, 19, %l0
	or	%g1, %l0, %g1
.LBE303:
.LBE302:
	.loc 1 22 29
	xor	%i2, %g1, %i2
.LBB304:
.LBB305:
	.loc 1 9 46
	sll	%o1, 10, %g1
	srl	%o1, 22, %l0
	or	%g1, %l0, %g1
.LBE305:
.LBE304:
	.loc 1 22 42
	xor	%i2, %g1, %i2
	.loc 1 22 70
	xor	%i5, %o0, %g1
	and	%g1, %o1, %g1
	.loc 1 22 91
	and	%i5, %o0, %i5
	.loc 1 22 83
	xor	%g1, %i5, %g1
	.loc 1 22 13
	add	%i2, %g1, %i2
.LBB306:
	.loc 1 23 18
	mov	7, %g1
	b,a	.L27
.L86:
	.loc 1 23 45
	add	%g1, -2, %g1
	sll	%g1, 2, %g1
	add	%fp, %g1, %g1
	ld	[%g1-400], %i4
	.loc 1 23 33
	mov	%i5, %g1
.L27:
	.loc 1 23 42
	sll	%g1, 2, %i5
	add	%fp, %i5, %i5
	st	%i4, [%i5-400]
	.loc 1 23 27
	addcc	%g1, -1, %i5
	bne	.L86
	 nop
.LBE306:
	.loc 1 24 14
	ld	[%fp-384], %g1
	add	%i3, %g1, %g1
	st	%g1, [%fp-384]
	.loc 1 24 31
	add	%i3, %i2, %o1
	.loc 1 24 26
	st	%o1, [%fp-400]
.LBE308:
	.loc 1 19 30
	add	%o5, 1, %o5
	.loc 1 19 23
	cmp	%o5, 64
	be	.L87
	 nop
.LBB309:
	.loc 1 21 95
	sll	%o5, 2, %i2
	ld	[%o4+%i2], %l0
	b,a	.L29
.L87:
	mov	0, %g1
	b,a	.L28
.L88:
.LBE309:
.LBE322:
.LBB323:
	.loc 1 26 45
	sll	%i5, 2, %g1
	add	%fp, %g1, %i4
	ld	[%i4-400], %o1
.L28:
	.loc 1 26 41
	add	%fp, %g1, %g1
	ld	[%g1-368], %i4
	add	%i4, %o1, %i4
	st	%i4, [%g1-368]
	.loc 1 26 29
	add	%i5, 1, %i5
	.loc 1 26 23
	cmp	%i5, 8
	bne	.L88
	 nop
.LBE323:
.LBE324:
.LBE325:
	.loc 1 30 44
	mov	0, %g1
	b,a	.L31
.L85:
	mov	0, %g1
	b,a	.L41
.L89:
.LBE326:
.LBE327:
.LBE329:
.LBE384:
.LBB385:
.LBB383:
.LBB380:
.LBB377:
.LBB375:
.LBB373:
.LBB371:
.LBB369:
	.loc 1 26 45
	sll	%i5, 2, %g1
	add	%fp, %g1, %i4
	ld	[%i4-400], %o0
.L41:
	.loc 1 26 41
	add	%fp, %g1, %g1
	ld	[%g1-368], %i4
	add	%i4, %o0, %i4
	st	%i4, [%g1-368]
	.loc 1 26 29
	add	%i5, 1, %i5
	.loc 1 26 23
	cmp	%i5, 8
	bne	.L89
	 nop
.LBE369:
.LBE371:
.LBE373:
	.loc 1 30 44
	mov	0, %g1
.LBE375:
.LBE377:
.LBE380:
.LBE383:
	.loc 1 40 24
	addcc	%o3, -8, %o3
	bpos	.L44
	 nop
.L83:
.LBE385:
.LBB386:
	.loc 1 41 14
	mov	0, %i2
	sethi	%hi(.LC1), %i3
	or	%i3, %lo(.LC1), %i3
.L45:
.LBB387:
	.loc 1 41 73
	sll	%i2, 2, %g1
	add	%fp, %g1, %g1
	ld	[%g1-368], %i4
	.loc 1 41 42
	mov	28, %g1
.L46:
	.loc 1 41 77 discriminator 4
	srl	%i4, %g1, %i5
.LBB388:
.LBB389:
	.loc 1 32 51 discriminator 4
	and	%i5, 15, %i5
	.loc 1 32 26 discriminator 4
	ldsb	[%i3+%i5], %o0
.LBB390:
.LBB391:
	.loc 2 31 5 discriminator 4
#APP
! 31 "runtime/plug.h" 1
	ta 2
! 0 "" 2
#NO_APP
.LBE391:
.LBE390:
.LBE389:
.LBE388:
	.loc 1 41 52 discriminator 4
	addcc	%g1, -4, %g1
	bpos	.L46
	 nop
.LBE387:
	.loc 1 41 29 discriminator 5
	add	%i2, 1, %i2
	.loc 1 41 23 discriminator 5
	cmp	%i2, 8
	bne	.L45
	 nop
.LBE386:
.LBB392:
.LBB393:
	.loc 2 30 18
	mov	10, %o0
	.loc 2 31 5
#APP
! 31 "runtime/plug.h" 1
	ta 2
! 0 "" 2
#NO_APP
.LBE393:
.LBE392:
	.loc 1 44 1
	mov	0, %i0
	restore
	jmp	%o7+8
	 nop
.L82:
	.loc 1 39 19
	mov	%o3, %g1
	b,a	.L32
.L79:
.LBB394:
.LBB284:
.LBB252:
.LBB253:
.LBB254:
.LBB255:
	.loc 1 12 14
	mov	0, %i5
.L14:
	.loc 1 13 29
	sll	%i5, 2, %i4
	.loc 1 13 14
	add	%fp, %i4, %i4
	.loc 1 13 16
	ldub	[%i4-336], %g1
	.loc 1 13 33
	sll	%g1, 24, %g1
	.loc 1 13 100
	ldub	[%i4-333], %i3
	.loc 1 13 92
	or	%g1, %i3, %g1
	.loc 1 13 41
	ldub	[%i4-335], %i3
	.loc 1 13 60
	sll	%i3, 16, %i3
	.loc 1 13 92
	or	%g1, %i3, %g1
	.loc 1 13 68
	ldub	[%i4-334], %i3
	.loc 1 13 87
	sll	%i3, 8, %i3
	.loc 1 13 92
	or	%g1, %i3, %g1
	.loc 1 13 14
	st	%g1, [%i4-256]
	.loc 1 12 30
	add	%i5, 1, %i5
	.loc 1 12 23
	cmp	%i5, 16
	bne	.L14
	 nop
.L15:
.LBE255:
.LBB256:
.LBB257:
	.loc 1 15 17
	add	%i5, -15, %g1
	sll	%g1, 2, %g1
	add	%fp, %g1, %g1
	ld	[%g1-256], %i4
	.loc 1 15 72
	add	%i5, -2, %g1
	sll	%g1, 2, %g1
	add	%fp, %g1, %g1
	ld	[%g1-256], %i3
	.loc 1 16 14
	sll	%i5, 2, %i2
	add	%fp, %i2, %i2
.LBB258:
.LBB259:
	.loc 1 9 46
	srl	%i4, 7, %g1
	sll	%i4, 25, %o5
	or	%g1, %o5, %g1
.LBE259:
.LBE258:
.LBB260:
.LBB261:
	sll	%i4, 14, %o5
	srl	%i4, 18, %o4
	or	%o5, %o4, %o5
.LBE261:
.LBE260:
	.loc 1 15 33
	xor	%g1, %o5, %g1
	.loc 1 15 62
	srl	%i4, 3, %i4
	.loc 1 15 13
	xor	%g1, %i4, %g1
	.loc 1 16 17
	add	%i5, -16, %o5
	sll	%o5, 2, %o5
	add	%fp, %o5, %o5
	.loc 1 16 31
	add	%i5, -7, %i4
	sll	%i4, 2, %i4
	add	%fp, %i4, %i4
	.loc 1 16 28
	ld	[%o5-256], %o5
	ld	[%i4-256], %i4
	add	%o5, %i4, %i4
	add	%g1, %i4, %g1
.LBB262:
.LBB263:
	.loc 1 9 46
	sll	%i3, 15, %i4
	srl	%i3, 17, %o5
	or	%i4, %o5, %i4
.LBE263:
.LBE262:
.LBB264:
.LBB265:
	sll	%i3, 13, %o5
	srl	%i3, 19, %o4
	or	%o5, %o4, %o5
.LBE265:
.LBE264:
	.loc 1 15 88
	xor	%i4, %o5, %i4
	.loc 1 15 115
	srl	%i3, 10, %i3
	.loc 1 15 68
	xor	%i4, %i3, %i4
	.loc 1 16 37
	add	%g1, %i4, %g1
	.loc 1 16 14
	st	%g1, [%i2-256]
.LBE257:
	.loc 1 14 31
	add	%i5, 1, %i5
	.loc 1 14 24
	cmp	%i5, 64
	bne	.L15
	 nop
.LBE256:
.LBB266:
	.loc 1 18 14
	mov	0, %g1
.L16:
	.loc 1 18 38
	sll	%g1, 2, %i5
	add	%fp, %i5, %i5
	ld	[%i5-368], %i4
	st	%i4, [%i5-400]
	.loc 1 18 29
	add	%g1, 1, %g1
	.loc 1 18 23
	cmp	%g1, 8
	bne	.L16
	 nop
.LBE266:
.LBB267:
.LBB268:
	.loc 1 20 13
	ld	[%fp-384], %g1
	.loc 1 20 23
	ld	[%fp-400], %o3
.LBE268:
	.loc 1 19 14
	mov	0, %o5
	sethi	%hi(K), %o4
	or	%o4, %lo(K), %o4
.L19:
.LBB282:
	.loc 1 21 86
	ld	[%fp-376], %i4
.LBB269:
.LBB270:
	.loc 1 9 46
	srl	%g1, 6, %i3
	sll	%g1, 26, %i5
	or	%i3, %i5, %i3
.LBE270:
.LBE269:
.LBB271:
.LBB272:
	srl	%g1, 11, %i5
	sll	%g1, 21, %i2
	or	%i5, %i2, %i5
.LBE272:
.LBE271:
	.loc 1 21 36
	xor	%i3, %i5, %i3
.LBB273:
.LBB274:
	.loc 1 9 46
	sll	%g1, 7, %i5
	srl	%g1, 25, %i2
	or	%i5, %i2, %i5
.LBE274:
.LBE273:
	.loc 1 21 49
	xor	%i3, %i5, %i3
	.loc 1 21 95
	sll	%o5, 2, %i5
	.loc 1 21 102
	add	%fp, %i5, %i2
	.loc 1 21 13
	ld	[%o4+%i5], %i5
	ld	[%i2-256], %i2
	add	%i5, %i2, %i5
	ld	[%fp-372], %i2
	add	%i5, %i2, %i5
	add	%i3, %i5, %i3
	.loc 1 21 69
	ld	[%fp-380], %i5
	and	%g1, %i5, %i5
	.loc 1 21 83
	andn	%i4, %g1, %g1
	.loc 1 21 77
	xor	%i5, %g1, %g1
	.loc 1 21 13
	add	%i3, %g1, %i3
	.loc 1 22 65
	ld	[%fp-396], %i5
	.loc 1 22 78
	ld	[%fp-392], %o2
.LBB275:
.LBB276:
	.loc 1 9 46
	srl	%o3, 2, %i2
	sll	%o3, 30, %g1
	or	%i2, %g1, %i2
.LBE276:
.LBE275:
.LBB277:
.LBB278:
	srl	%o3, 13, %g1
	sll	%o3, 19, %o1
	or	%g1, %o1, %g1
.LBE278:
.LBE277:
	.loc 1 22 29
	xor	%i2, %g1, %i2
.LBB279:
.LBB280:
	.loc 1 9 46
	sll	%o3, 10, %g1
	srl	%o3, 22, %o1
	or	%g1, %o1, %g1
.LBE280:
.LBE279:
	.loc 1 22 42
	xor	%i2, %g1, %i2
	.loc 1 22 70
	xor	%i5, %o2, %g1
	and	%g1, %o3, %g1
	.loc 1 22 91
	and	%i5, %o2, %i5
	.loc 1 22 83
	xor	%g1, %i5, %g1
	.loc 1 22 13
	add	%i2, %g1, %i2
.LBB281:
	.loc 1 23 18
	mov	7, %g1
	b,a	.L18
.L90:
	.loc 1 23 45
	add	%g1, -2, %g1
	sll	%g1, 2, %g1
	add	%fp, %g1, %g1
	ld	[%g1-400], %i4
	.loc 1 23 33
	mov	%i5, %g1
.L18:
	.loc 1 23 42
	sll	%g1, 2, %i5
	add	%fp, %i5, %i5
	st	%i4, [%i5-400]
	.loc 1 23 27
	addcc	%g1, -1, %i5
	bne	.L90
	 nop
.LBE281:
	.loc 1 24 14
	ld	[%fp-384], %g1
	add	%i3, %g1, %g1
	st	%g1, [%fp-384]
	.loc 1 24 31
	add	%i3, %i2, %o3
	.loc 1 24 26
	st	%o3, [%fp-400]
.LBE282:
	.loc 1 19 30
	add	%o5, 1, %o5
	.loc 1 19 23
	cmp	%o5, 64
	bne	.L19
	 nop
.L20:
.LBE267:
.LBB283:
	.loc 1 26 41
	sll	%i5, 2, %g1
	add	%fp, %g1, %g1
	ld	[%g1-368], %i4
	ld	[%g1-400], %i3
	add	%i4, %i3, %i4
	st	%i4, [%g1-368]
	.loc 1 26 29
	add	%i5, 1, %i5
	.loc 1 26 23
	cmp	%i5, 8
	bne	.L20
	 nop
.LBE283:
	mov	0, %o3
	b,a	.L13
.LBE254:
.LBE253:
.LBE252:
.LBE284:
.LBE394:
	.cfi_endproc
.LFE17:
	.size	main, .-main
	.section	".rodata"
	.align 4
	.type	K, #object
	.size	K, 256
K:
	.long	1116352408
	.long	1899447441
	.long	-1245643825
	.long	-373957723
	.long	961987163
	.long	1508970993
	.long	-1841331548
	.long	-1424204075
	.long	-670586216
	.long	310598401
	.long	607225278
	.long	1426881987
	.long	1925078388
	.long	-2132889090
	.long	-1680079193
	.long	-1046744716
	.long	-459576895
	.long	-272742522
	.long	264347078
	.long	604807628
	.long	770255983
	.long	1249150122
	.long	1555081692
	.long	1996064986
	.long	-1740746414
	.long	-1473132947
	.long	-1341970488
	.long	-1084653625
	.long	-958395405
	.long	-710438585
	.long	113926993
	.long	338241895
	.long	666307205
	.long	773529912
	.long	1294757372
	.long	1396182291
	.long	1695183700
	.long	1986661051
	.long	-2117940946
	.long	-1838011259
	.long	-1564481375
	.long	-1474664885
	.long	-1035236496
	.long	-949202525
	.long	-778901479
	.long	-694614492
	.long	-200395387
	.long	275423344
	.long	430227734
	.long	506948616
	.long	659060556
	.long	883997877
	.long	958139571
	.long	1322822218
	.long	1537002063
	.long	1747873779
	.long	1955562222
	.long	2024104815
	.long	-2067236844
	.long	-1933114872
	.long	-1866530822
	.long	-1538233109
	.long	-1090935817
	.long	-965641998
	.section	".text"
.Letext0:
