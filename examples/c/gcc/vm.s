	.file	"vm.c"
	.section	".text"
.Ltext0:
	.cfi_sections	.debug_frame
	.file 0 "." "vm.c"
	.section	.text.startup,"ax",@progbits
	.align 4
	.global main
	.type	main, #function
	.proc	04
main:
.LFB14:
	.file 1 "vm.c"
	.loc 1 7 16
	.cfi_startproc
	save	%sp, -96, %sp
	.cfi_window_save
	.cfi_register 15, 31
	.cfi_def_cfa_register 30
.LBB158:
.LBB159:
	.file 2 "runtime/plug.h"
	.loc 2 24 5
#APP
! 24 "runtime/plug.h" 1
	ta 1
! 0 "" 2
#NO_APP
.LBE159:
.LBE158:
	.loc 1 9 8
	orcc	%o0, 0, %i3
	bl	.L2
	 nop
.LBB160:
	.loc 1 10 14
	mov	0, %g1
	.loc 1 10 23
	be	.L4
	 nop
.LBB161:
	.loc 1 10 88
	sethi	%hi(code), %i5
	or	%i5, %lo(code), %i5
.L3:
.LBB162:
.LBB163:
	.loc 2 24 5
#APP
! 24 "runtime/plug.h" 1
	ta 1
! 0 "" 2
#NO_APP
.LBE163:
.LBE162:
	.loc 1 10 56
	cmp	%o0, 0
	bl	.L76
	 nop
	.loc 1 10 88 discriminator 3
	stb	%o0, [%i5+%g1]
.LBE161:
	.loc 1 10 32 discriminator 3
	add	%g1, 1, %g1
	.loc 1 10 23 discriminator 3
	cmp	%g1, %i3
	bl	.L3
	 nop
.L4:
.LBE160:
.LBB172:
.LBB173:
	.loc 1 13 12
	cmp	%i3, 0
	be	.L8
	 nop
.LBE173:
	.loc 1 12 14
	mov	0, %i0
.LBE172:
	.loc 1 11 17
	mov	0, %i2
	.loc 1 11 9
	mov	0, %i5
	sethi	%hi(code), %o5
	or	%o5, %lo(code), %o5
.LBB290:
	.loc 1 12 31
	sethi	%hi(99328), %o4
	or	%o4, 672, %o4
.L9:
.LBB284:
	.loc 1 14 25
	add	%i5, 1, %i1
	.loc 1 14 22
	ldub	[%o5+%i5], %i4
	.loc 1 15 12
	andcc	%i4, 0xff, %g1
	be	.L10
	 nop
	.loc 1 15 24 discriminator 1
	add	%i4, -8, %i4
	and	%i4, 0xff, %i4
	cmp	%i4, 3
	bleu	.L10
	 nop
	.loc 1 14 25
	mov	%i1, %i4
	.loc 1 14 30
	mov	0, %i5
	.loc 1 19 9
	cmp	%g1, 9
	be	.L13
	 nop
.L87:
	bgu	.L14
	 nop
	cmp	%g1, 6
	be	.L15
	 nop
	bleu	.L77
	 nop
	cmp	%g1, 7
	be	.L78
	 nop
.L21:
.LBE284:
	.loc 1 12 46 discriminator 2
	add	%i0, 1, %i0
	.loc 1 12 31 discriminator 2
	cmp	%i0, %o4
	be	.L79
	 nop
.LBB285:
	.loc 1 13 12
	cmp	%i5, %i3
	bl	.L9
	 nop
.L8:
.LBB174:
.LBB175:
.LBB176:
	.loc 2 30 18
	mov	33, %o0
	.loc 2 31 5
#APP
! 31 "runtime/plug.h" 1
	ta 2
! 0 "" 2
#NO_APP
.LBE176:
.LBE175:
.LBB177:
.LBB178:
	.loc 2 30 18
	mov	49, %o0
	.loc 2 31 5
#APP
! 31 "runtime/plug.h" 1
	ta 2
! 0 "" 2
#NO_APP
.LBE178:
.LBE177:
.LBB179:
.LBB180:
	.loc 2 30 18
	mov	10, %o0
	.loc 2 31 5
#APP
! 31 "runtime/plug.h" 1
	ta 2
! 0 "" 2
#NO_APP
.LBE180:
.LBE179:
.LBE174:
	.loc 1 13 32
	b,a	.L5
.L14:
	.loc 1 19 9
	cmp	%g1, 12
	be	.L22
	 nop
	bleu	.L80
	 nop
	cmp	%g1, 14
	be	.L18
	 nop
	cmp	%g1, 15
	bne	.L81
	 nop
	mov	0, %i0
.LBE285:
.LBE290:
	.loc 1 45 1
	restore
	jmp	%o7+8
	 nop
.L77:
.LBB291:
.LBB286:
	.loc 1 19 9
	cmp	%g1, 5
	be	.L17
	 nop
	cmp	%g1, 0
	bne	.L18
	 nop
	.loc 1 20 23
	cmp	%i2, 32
	be	.L82
	 nop
	.loc 1 20 62 discriminator 2
	sll	%i2, 2, %i1
	.loc 1 20 64 discriminator 2
	sll	%i5, 24, %i5
	sra	%i5, 24, %i5
	sethi	%hi(stack), %g1
	or	%g1, %lo(stack), %g1
	st	%i5, [%g1+%i1]
	.loc 1 20 58 discriminator 2
	add	%i2, 1, %i2
	.loc 1 20 82 discriminator 2
	mov	%i4, %i5
	b,a	.L21
.L81:
	.loc 1 19 9
	cmp	%g1, 13
	bne	.L83
	 nop
	.loc 1 39 22
	cmp	%i2, 0
	be	.L84
	 nop
	.loc 1 39 47 discriminator 2
	add	%i2, -1, %i2
	sll	%i2, 2, %i5
.LBB181:
.LBB182:
	.loc 2 30 18 discriminator 2
	sethi	%hi(stack), %g1
	or	%g1, %lo(stack), %g1
	ld	[%g1+%i5], %o0
	.loc 2 31 5 discriminator 2
#APP
! 31 "runtime/plug.h" 1
	ta 2
! 0 "" 2
	.loc 2 32 1 discriminator 2
#NO_APP
	mov	%i4, %i5
	b,a	.L21
.L80:
.LBE182:
.LBE181:
	.loc 1 19 9
	cmp	%g1, 10
	be	.L85
	 nop
	.loc 1 37 24
	cmp	%i2, 0
	be	.L43
	 nop
	.loc 1 37 32 discriminator 2
	cmp	%i5, 15
	bg	.L43
	 nop
	.loc 1 37 74 discriminator 4
	add	%i2, -1, %i2
	sll	%i5, 2, %i5
	.loc 1 37 81 discriminator 4
	sll	%i2, 2, %i1
	.loc 1 37 74 discriminator 4
	sethi	%hi(stack), %g1
	or	%g1, %lo(stack), %g1
	ld	[%g1+%i1], %i1
	sethi	%hi(memory), %g1
	or	%g1, %lo(memory), %g1
	st	%i1, [%g1+%i5]
	.loc 1 37 89 discriminator 4
	mov	%i4, %i5
	b,a	.L21
.L10:
	.loc 1 16 16
	cmp	%i1, %i3
	bge	.L86
	 nop
	.loc 1 17 26
	add	%i5, 2, %i4
	.loc 1 17 17
	ldub	[%o5+%i1], %i5
	.loc 1 19 9
	cmp	%g1, 9
	bne	.L87
	 nop
.L13:
	.loc 1 35 21
	cmp	%i2, 0
	be	.L88
	 nop
	.loc 1 35 49 discriminator 2
	add	%i2, -1, %i2
	.loc 1 35 56 discriminator 2
	sll	%i2, 2, %i1
	.loc 1 35 49 discriminator 2
	sethi	%hi(stack), %g1
	or	%g1, %lo(stack), %g1
	ld	[%g1+%i1], %g1
	cmp	%g1, 0
	be	.L21
	 nop
	.loc 1 35 49 is_stmt 0
	mov	%i4, %i5
	b,a	.L21
.L2:
.LBE286:
.LBE291:
.LBB292:
.LBB293:
.LBB294:
	.loc 2 30 18 is_stmt 1
	mov	33, %o0
	.loc 2 31 5
#APP
! 31 "runtime/plug.h" 1
	ta 2
! 0 "" 2
#NO_APP
.LBE294:
.LBE293:
.LBB295:
.LBB296:
	.loc 2 30 18
	mov	48, %o0
	.loc 2 31 5
#APP
! 31 "runtime/plug.h" 1
	ta 2
! 0 "" 2
#NO_APP
.LBE296:
.LBE295:
.LBB297:
.LBB298:
	.loc 2 30 18
	mov	10, %o0
	.loc 2 31 5
#APP
! 31 "runtime/plug.h" 1
	ta 2
! 0 "" 2
#NO_APP
.L5:
.LBE298:
.LBE297:
.LBE292:
	.loc 1 9 26
	mov	1, %i0
	restore
	jmp	%o7+8
	 nop
.L18:
.LBB299:
.LBB287:
.LBB183:
	.loc 1 22 16
	cmp	%i2, 1
	ble	.L89
	 nop
	.loc 1 23 17
	add	%i2, -1, %o3
	sethi	%hi(stack), %i5
	or	%i5, %lo(stack), %i5
	sll	%o3, 2, %i1
	ld	[%i5+%i1], %o2
	.loc 1 23 47
	add	%i2, -2, %i2
	.loc 1 23 34
	sll	%i2, 2, %i2
	ld	[%i5+%i2], %i1
	.loc 1 24 16
	cmp	%g1, 1
	be	.L90
	 nop
	.loc 1 25 21
	cmp	%g1, 2
	be	.L91
	 nop
	.loc 1 26 21
	cmp	%g1, 3
	be	.L92
	 nop
	.loc 1 27 21
	cmp	%g1, 14
	be	.L93
	 nop
	.loc 1 28 31
	add	%o2, 1, %g1
	.loc 1 28 23
	cmp	%g1, 1
	bleu	.L94
	 nop
	.loc 1 28 61 discriminator 2
	sra	%i1, 31, %o1
	wr	%o1, 0, %y
	nop
	nop
	nop
	sdiv	%i1, %o2, %g1
	b,a	.L31
.L22:
.LBE183:
	.loc 1 38 21
	cmp	%i2, 32
	be	.L95
	 nop
	.loc 1 38 56 discriminator 2
	add	%i2, 1, %i5
.LBB198:
.LBB199:
	.loc 2 24 5 discriminator 2
#APP
! 24 "runtime/plug.h" 1
	ta 1
! 0 "" 2
#NO_APP
.LBE199:
.LBE198:
	.loc 1 38 60 discriminator 2
	sll	%i2, 2, %i2
	sethi	%hi(stack), %g1
	or	%g1, %lo(stack), %g1
	st	%o0, [%g1+%i2]
	.loc 1 38 56 discriminator 2
	mov	%i5, %i2
	.loc 1 38 69 discriminator 2
	mov	%i4, %i5
	b,a	.L21
.L83:
.LBB200:
.LBB201:
.LBB202:
	.loc 2 30 18
	mov	33, %o0
	.loc 2 31 5
#APP
! 31 "runtime/plug.h" 1
	ta 2
! 0 "" 2
#NO_APP
.LBE202:
.LBE201:
.LBB203:
.LBB204:
	.loc 2 30 18
	mov	54, %o0
	.loc 2 31 5
#APP
! 31 "runtime/plug.h" 1
	ta 2
! 0 "" 2
#NO_APP
.LBE204:
.LBE203:
.LBB205:
.LBB206:
	.loc 2 30 18
	mov	10, %o0
	.loc 2 31 5
#APP
! 31 "runtime/plug.h" 1
	ta 2
! 0 "" 2
#NO_APP
.LBE206:
.LBE205:
.LBE200:
	.loc 1 41 25
	b,a	.L5
.L85:
	.loc 1 36 23
	cmp	%i2, 32
	be	.L41
	 nop
	.loc 1 36 33 discriminator 2
	cmp	%i5, 15
	bg	.L41
	 nop
	.loc 1 36 75 discriminator 4
	sll	%i2, 2, %i1
	.loc 1 36 83 discriminator 4
	sll	%i5, 2, %i5
	.loc 1 36 75 discriminator 4
	sethi	%hi(memory), %g1
	or	%g1, %lo(memory), %g1
	ld	[%g1+%i5], %i5
	sethi	%hi(stack), %g1
	or	%g1, %lo(stack), %g1
	st	%i5, [%g1+%i1]
	.loc 1 36 71 discriminator 4
	add	%i2, 1, %i2
	.loc 1 36 90 discriminator 4
	mov	%i4, %i5
	b,a	.L21
.L78:
	.loc 1 33 22
	cmp	%i2, 0
	be	.L96
	 nop
	.loc 1 33 49 discriminator 2
	add	%i2, -1, %i2
	.loc 1 33 53 discriminator 2
	mov	%i4, %i5
	b,a	.L21
.L17:
	.loc 1 31 22
	andcc	%i2, -33, %g0
	be	.L97
	 nop
	.loc 1 31 76 discriminator 4
	sethi	%hi(stack), %g1
	or	%g1, %lo(stack), %g1
	add	%i2, -1, %i5
	sll	%i5, 2, %i5
	ld	[%g1+%i5], %i1
	.loc 1 31 69 discriminator 4
	sll	%i2, 2, %i5
	st	%i1, [%g1+%i5]
	.loc 1 31 88 discriminator 4
	add	%i2, 1, %i2
	.loc 1 31 92 discriminator 4
	mov	%i4, %i5
	b,a	.L21
.L15:
.LBB207:
	.loc 1 32 25
	cmp	%i2, 1
	ble	.L98
	 nop
	.loc 1 32 67 discriminator 2
	add	%i2, -1, %i5
	.loc 1 32 54 discriminator 2
	sethi	%hi(stack), %g1
	or	%g1, %lo(stack), %g1
	sll	%i5, 2, %i5
	ld	[%g1+%i5], %o3
	.loc 1 32 98 discriminator 2
	add	%i2, -2, %i1
	.loc 1 32 94 discriminator 2
	sll	%i1, 2, %i1
	ld	[%g1+%i1], %o2
	.loc 1 32 87 discriminator 2
	st	%o2, [%g1+%i5]
	.loc 1 32 118 discriminator 2
	st	%o3, [%g1+%i1]
	.loc 1 32 123 discriminator 2
	mov	%i4, %i5
	b,a	.L21
.L90:
.LBE207:
.LBB215:
	.loc 1 24 50 discriminator 1
	add	%i1, %o2, %g1
.L31:
	.loc 1 29 27
	st	%g1, [%i5+%i2]
	.loc 1 23 17
	mov	%o3, %i2
	.loc 1 30 13
	mov	%i4, %i5
	b,a	.L21
.L76:
.LBE215:
.LBE287:
.LBE299:
.LBB300:
.LBB171:
.LBB164:
.LBB165:
.LBB166:
	.loc 2 30 18
	mov	33, %o0
	.loc 2 31 5
#APP
! 31 "runtime/plug.h" 1
	ta 2
! 0 "" 2
#NO_APP
.LBE166:
.LBE165:
.LBB167:
.LBB168:
	.loc 2 30 18
	mov	48, %o0
	.loc 2 31 5
#APP
! 31 "runtime/plug.h" 1
	ta 2
! 0 "" 2
#NO_APP
.LBE168:
.LBE167:
.LBB169:
.LBB170:
	.loc 2 30 18
	mov	10, %o0
	.loc 2 31 5
#APP
! 31 "runtime/plug.h" 1
	ta 2
! 0 "" 2
#NO_APP
.LBE170:
.LBE169:
.LBE164:
	.loc 1 10 71
	b,a	.L5
.L86:
.LBE171:
.LBE300:
.LBB301:
.LBB288:
.LBB216:
.LBB217:
.LBB218:
	.loc 2 30 18
	mov	33, %o0
	.loc 2 31 5
#APP
! 31 "runtime/plug.h" 1
	ta 2
! 0 "" 2
#NO_APP
.LBE218:
.LBE217:
.LBB219:
.LBB220:
	.loc 2 30 18
	mov	49, %o0
	.loc 2 31 5
#APP
! 31 "runtime/plug.h" 1
	ta 2
! 0 "" 2
#NO_APP
.LBE220:
.LBE219:
.LBB221:
.LBB222:
	.loc 2 30 18
	mov	10, %o0
	.loc 2 31 5
#APP
! 31 "runtime/plug.h" 1
	ta 2
! 0 "" 2
#NO_APP
.LBE222:
.LBE221:
.LBE216:
	.loc 1 16 36
	b,a	.L5
.L91:
.LBB223:
	.loc 1 25 55 discriminator 1
	sub	%i1, %o2, %g1
	b,a	.L31
.L93:
	.loc 1 27 38 discriminator 1
	mov	1, %g1
	cmp	%o2, %i1
	bg	.L31
	 nop
	mov	0, %g1
	b,a	.L31
.L43:
.LBE223:
.LBB224:
.LBB225:
.LBB226:
	.loc 2 30 18
	mov	33, %o0
	.loc 2 31 5
#APP
! 31 "runtime/plug.h" 1
	ta 2
! 0 "" 2
#NO_APP
.LBE226:
.LBE225:
.LBB227:
.LBB228:
	.loc 2 30 18
	mov	53, %o0
	.loc 2 31 5
#APP
! 31 "runtime/plug.h" 1
	ta 2
! 0 "" 2
#NO_APP
.LBE228:
.LBE227:
.LBB229:
.LBB230:
	.loc 2 30 18
	mov	10, %o0
	.loc 2 31 5
#APP
! 31 "runtime/plug.h" 1
	ta 2
! 0 "" 2
#NO_APP
.LBE230:
.LBE229:
.LBE224:
	.loc 1 37 53
	b,a	.L5
.L84:
.LBB231:
.LBB232:
.LBB233:
	.loc 2 30 18
	mov	33, %o0
	.loc 2 31 5
#APP
! 31 "runtime/plug.h" 1
	ta 2
! 0 "" 2
#NO_APP
.LBE233:
.LBE232:
.LBB234:
.LBB235:
	.loc 2 30 18
	mov	51, %o0
	.loc 2 31 5
#APP
! 31 "runtime/plug.h" 1
	ta 2
! 0 "" 2
#NO_APP
.LBE235:
.LBE234:
.LBB236:
.LBB237:
	.loc 2 30 18
	mov	10, %o0
	.loc 2 31 5
#APP
! 31 "runtime/plug.h" 1
	ta 2
! 0 "" 2
#NO_APP
.LBE237:
.LBE236:
.LBE231:
	.loc 1 39 38
	b,a	.L5
.L82:
.LBB238:
.LBB239:
.LBB240:
	.loc 2 30 18
	mov	33, %o0
	.loc 2 31 5
#APP
! 31 "runtime/plug.h" 1
	ta 2
! 0 "" 2
#NO_APP
.LBE240:
.LBE239:
.LBB241:
.LBB242:
	.loc 2 30 18
	mov	50, %o0
	.loc 2 31 5
#APP
! 31 "runtime/plug.h" 1
	ta 2
! 0 "" 2
#NO_APP
.LBE242:
.LBE241:
.LBB243:
.LBB244:
	.loc 2 30 18
	mov	10, %o0
	.loc 2 31 5
#APP
! 31 "runtime/plug.h" 1
	ta 2
! 0 "" 2
#NO_APP
.LBE244:
.LBE243:
.LBE238:
	.loc 1 20 41
	b,a	.L5
.L92:
.LBB245:
	.loc 1 26 55 discriminator 1
	smul	%i1, %o2, %g1
	b,a	.L31
.L79:
.LBE245:
.LBE288:
.LBE301:
.LBB302:
.LBB303:
.LBB304:
	.loc 2 30 18
	mov	33, %o0
	.loc 2 31 5
#APP
! 31 "runtime/plug.h" 1
	ta 2
! 0 "" 2
#NO_APP
.LBE304:
.LBE303:
.LBB305:
.LBB306:
	.loc 2 30 18
	mov	55, %o0
	.loc 2 31 5
#APP
! 31 "runtime/plug.h" 1
	ta 2
! 0 "" 2
#NO_APP
.LBE306:
.LBE305:
.LBB307:
.LBB308:
	.loc 2 30 18
	mov	10, %o0
	.loc 2 31 5
#APP
! 31 "runtime/plug.h" 1
	ta 2
! 0 "" 2
#NO_APP
.LBE308:
.LBE307:
.LBE302:
	.loc 1 44 12
	b,a	.L5
.L41:
.LBB309:
.LBB289:
.LBB246:
.LBB247:
.LBB248:
	.loc 2 30 18
	mov	33, %o0
	.loc 2 31 5
#APP
! 31 "runtime/plug.h" 1
	ta 2
! 0 "" 2
#NO_APP
.LBE248:
.LBE247:
.LBB249:
.LBB250:
	.loc 2 30 18
	mov	53, %o0
	.loc 2 31 5
#APP
! 31 "runtime/plug.h" 1
	ta 2
! 0 "" 2
#NO_APP
.LBE250:
.LBE249:
.LBB251:
.LBB252:
	.loc 2 30 18
	mov	10, %o0
	.loc 2 31 5
#APP
! 31 "runtime/plug.h" 1
	ta 2
! 0 "" 2
#NO_APP
.LBE252:
.LBE251:
.LBE246:
	.loc 1 36 54
	b,a	.L5
.L97:
.LBB253:
.LBB254:
.LBB255:
	.loc 2 30 18
	mov	33, %o0
	.loc 2 31 5
#APP
! 31 "runtime/plug.h" 1
	ta 2
! 0 "" 2
#NO_APP
.LBE255:
.LBE254:
.LBB256:
.LBB257:
	.loc 2 30 18
	mov	51, %o0
	.loc 2 31 5
#APP
! 31 "runtime/plug.h" 1
	ta 2
! 0 "" 2
#NO_APP
.LBE257:
.LBE256:
.LBB258:
.LBB259:
	.loc 2 30 18
	mov	10, %o0
	.loc 2 31 5
#APP
! 31 "runtime/plug.h" 1
	ta 2
! 0 "" 2
#NO_APP
.LBE259:
.LBE258:
.LBE253:
	.loc 1 31 50
	b,a	.L5
.L98:
.LBB260:
.LBB208:
.LBB209:
.LBB210:
	.loc 2 30 18
	mov	33, %o0
	.loc 2 31 5
#APP
! 31 "runtime/plug.h" 1
	ta 2
! 0 "" 2
#NO_APP
.LBE210:
.LBE209:
.LBB211:
.LBB212:
	.loc 2 30 18
	mov	51, %o0
	.loc 2 31 5
#APP
! 31 "runtime/plug.h" 1
	ta 2
! 0 "" 2
#NO_APP
.LBE212:
.LBE211:
.LBB213:
.LBB214:
	.loc 2 30 18
	mov	10, %o0
	.loc 2 31 5
#APP
! 31 "runtime/plug.h" 1
	ta 2
! 0 "" 2
#NO_APP
.LBE214:
.LBE213:
.LBE208:
	.loc 1 32 41
	b,a	.L5
.L95:
.LBE260:
.LBB261:
.LBB262:
.LBB263:
	.loc 2 30 18
	mov	33, %o0
	.loc 2 31 5
#APP
! 31 "runtime/plug.h" 1
	ta 2
! 0 "" 2
#NO_APP
.LBE263:
.LBE262:
.LBB264:
.LBB265:
	.loc 2 30 18
	mov	50, %o0
	.loc 2 31 5
#APP
! 31 "runtime/plug.h" 1
	ta 2
! 0 "" 2
#NO_APP
.LBE265:
.LBE264:
.LBB266:
.LBB267:
	.loc 2 30 18
	mov	10, %o0
	.loc 2 31 5
#APP
! 31 "runtime/plug.h" 1
	ta 2
! 0 "" 2
#NO_APP
.LBE267:
.LBE266:
.LBE261:
	.loc 1 38 39
	b,a	.L5
.L96:
.LBB268:
.LBB269:
.LBB270:
	.loc 2 30 18
	mov	33, %o0
	.loc 2 31 5
#APP
! 31 "runtime/plug.h" 1
	ta 2
! 0 "" 2
#NO_APP
.LBE270:
.LBE269:
.LBB271:
.LBB272:
	.loc 2 30 18
	mov	51, %o0
	.loc 2 31 5
#APP
! 31 "runtime/plug.h" 1
	ta 2
! 0 "" 2
#NO_APP
.LBE272:
.LBE271:
.LBB273:
.LBB274:
	.loc 2 30 18
	mov	10, %o0
	.loc 2 31 5
#APP
! 31 "runtime/plug.h" 1
	ta 2
! 0 "" 2
#NO_APP
.LBE274:
.LBE273:
.LBE268:
	.loc 1 33 38
	b,a	.L5
.L89:
.LBB275:
.LBB184:
.LBB185:
.LBB186:
	.loc 2 30 18
	mov	33, %o0
	.loc 2 31 5
#APP
! 31 "runtime/plug.h" 1
	ta 2
! 0 "" 2
#NO_APP
.LBE186:
.LBE185:
.LBB187:
.LBB188:
	.loc 2 30 18
	mov	51, %o0
	.loc 2 31 5
#APP
! 31 "runtime/plug.h" 1
	ta 2
! 0 "" 2
#NO_APP
.LBE188:
.LBE187:
.LBB189:
.LBB190:
	.loc 2 30 18
	mov	10, %o0
	.loc 2 31 5
#APP
! 31 "runtime/plug.h" 1
	ta 2
! 0 "" 2
#NO_APP
.LBE190:
.LBE189:
.LBE184:
	.loc 1 22 32
	b,a	.L5
.L88:
.LBE275:
.LBB276:
.LBB277:
.LBB278:
	.loc 2 30 18
	mov	33, %o0
	.loc 2 31 5
#APP
! 31 "runtime/plug.h" 1
	ta 2
! 0 "" 2
#NO_APP
.LBE278:
.LBE277:
.LBB279:
.LBB280:
	.loc 2 30 18
	mov	51, %o0
	.loc 2 31 5
#APP
! 31 "runtime/plug.h" 1
	ta 2
! 0 "" 2
#NO_APP
.LBE280:
.LBE279:
.LBB281:
.LBB282:
	.loc 2 30 18
	mov	10, %o0
	.loc 2 31 5
#APP
! 31 "runtime/plug.h" 1
	ta 2
! 0 "" 2
#NO_APP
.LBE282:
.LBE281:
.LBE276:
	.loc 1 35 37
	b,a	.L5
.L94:
.LBB283:
.LBB191:
.LBB192:
.LBB193:
	.loc 2 30 18
	mov	33, %o0
	.loc 2 31 5
#APP
! 31 "runtime/plug.h" 1
	ta 2
! 0 "" 2
#NO_APP
.LBE193:
.LBE192:
.LBB194:
.LBB195:
	.loc 2 30 18
	mov	52, %o0
	.loc 2 31 5
#APP
! 31 "runtime/plug.h" 1
	ta 2
! 0 "" 2
#NO_APP
.LBE195:
.LBE194:
.LBB196:
.LBB197:
	.loc 2 30 18
	mov	10, %o0
	.loc 2 31 5
#APP
! 31 "runtime/plug.h" 1
	ta 2
! 0 "" 2
#NO_APP
.LBE197:
.LBE196:
.LBE191:
	.loc 1 28 50
	b,a	.L5
.LBE283:
.LBE289:
.LBE309:
	.cfi_endproc
.LFE14:
	.size	main, .-main
	.local	memory
	.common	memory,64,4
	.local	stack
	.common	stack,128,4
	.local	code
	.common	code,256,8
	.section	".text"
.Letext0:
