	.file	"words.c"
	.section	".text"
.Ltext0:
	.cfi_sections	.debug_frame
	.file 0 "." "words.c"
	.section	.text.startup,"ax",@progbits
	.align 4
	.global main
	.type	main, #function
	.proc	04
main:
.LFB16:
	.file 1 "words.c"
	.loc 1 34 16
	.cfi_startproc
	save	%sp, -112, %sp
	.cfi_window_save
	.cfi_register 15, 31
	.cfi_def_cfa_register 30
	.loc 1 35 9
	mov	0, %g1
	sethi	%hi(made), %o2
	.loc 1 39 44
	sethi	%hi(word), %o5
	or	%o5, %lo(word), %o5
.LBB41:
.LBB42:
.LBB43:
	.loc 1 18 23
	sethi	%hi(bucket), %o4
	or	%o4, %lo(bucket), %o4
.LBE43:
.LBB46:
.LBB47:
	.loc 1 12 14
	sethi	%hi(5120), %o3
	or	%o3, 261, %o3
.L17:
.LBE47:
.LBE46:
.LBE42:
.LBE41:
.LBB62:
.LBB63:
	.file 2 "runtime/plug.h"
	.loc 2 24 5
#APP
! 24 "runtime/plug.h" 1
	ta 1
! 0 "" 2
#NO_APP
.LBE63:
.LBE62:
	.loc 1 38 12
	and	%o0, -33, %i5
	add	%i5, -65, %i5
	cmp	%i5, 25
	bleu	.L2
	 nop
	.loc 1 40 19 discriminator 1
	cmp	%g1, 0
	bne	.L3
	 nop
.L4:
	.loc 1 43 15
	mov	0, %g1
.L5:
	.loc 1 45 16
	cmp	%o0, 0
	bge	.L17
	 nop
.LBB64:
	.loc 1 46 23
	ld	[%o2+%lo(made)], %o5
	cmp	%o5, 0
	ble	.L19
	 nop
	.loc 1 46 14
	mov	0, %i1
	sethi	%hi(nodes), %i0
	or	%i0, %lo(nodes), %i0
.L18:
.LBB65:
	.loc 1 47 38
	add	%i1, %i1, %i4
	add	%i4, %i1, %i4
	sll	%i4, 3, %i5
	ldub	[%i0+%i5], %o0
	.loc 1 47 25
	sll	%o0, 24, %o0
	.loc 1 47 18
	mov	0, %g1
	.loc 1 47 38
	add	%i0, %i5, %i5
	.loc 1 47 25
	cmp	%o0, 0
	be	.L24
	 nop
.L20:
	.loc 1 47 48 discriminator 3
	sra	%o0, 24, %o0
.LBB66:
.LBB67:
	.loc 2 31 5 discriminator 3
#APP
! 31 "runtime/plug.h" 1
	ta 2
! 0 "" 2
#NO_APP
.LBE67:
.LBE66:
	.loc 1 47 44 discriminator 3
	add	%g1, 1, %g1
	.loc 1 47 38 discriminator 3
	ldub	[%i5+%g1], %o0
	.loc 1 47 25 discriminator 3
	sll	%o0, 24, %o0
	cmp	%o0, 0
	bne	.L20
	 nop
.L24:
.LBE65:
.LBB68:
.LBB69:
	.loc 2 30 18
	mov	32, %o0
	.loc 2 31 5
#APP
! 31 "runtime/plug.h" 1
	ta 2
! 0 "" 2
#NO_APP
.LBE69:
.LBE68:
	.loc 1 48 35
	sll	%i4, 3, %i4
	add	%i0, %i4, %i4
	.loc 1 48 19
	ld	[%i4+16], %i3
.LBB70:
.LBB71:
	.loc 1 30 9
	mov	0, %i5
.L21:
	.loc 1 31 32
	wr	%g0, 0, %y
	nop
	nop
	nop
	udiv	%i3, 10, %i2
	sll	%i2, 2, %g1
	add	%g1, %i2, %g1
	add	%g1, %g1, %g1
	sub	%i3, %g1, %g1
	.loc 1 31 28
	add	%g1, 48, %g1
	mov	%g1, %o0
	.loc 1 31 22
	add	%fp, %i5, %i4
	add	%i5, 1, %i5
	stb	%g1, [%i4-16]
	mov	%i3, %g1
	.loc 1 31 40
	mov	%i2, %i3
	.loc 1 31 56
	cmp	%g1, 9
	bgu	.L21
	 nop
	.loc 1 32 19
	add	%i5, -1, %g1
	sll	%o0, 24, %o0
	sra	%o0, 24, %o0
.LBB72:
.LBB73:
	.loc 2 31 5
#APP
! 31 "runtime/plug.h" 1
	ta 2
! 0 "" 2
#NO_APP
.LBE73:
.LBE72:
	.loc 1 32 14
	cmp	%g1, 0
	be	.L22
	 nop
.L45:
	.loc 1 32 29
	add	%fp, %i5, %i5
	ldub	[%i5-18], %o0
	.loc 1 32 19
	mov	%g1, %i5
	add	%i5, -1, %g1
	sll	%o0, 24, %o0
	sra	%o0, 24, %o0
.LBB75:
.LBB74:
	.loc 2 31 5
#APP
! 31 "runtime/plug.h" 1
	ta 2
! 0 "" 2
#NO_APP
.LBE74:
.LBE75:
	.loc 1 32 14
	cmp	%g1, 0
	bne	.L45
	 nop
.L22:
.LBE71:
.LBE70:
.LBB76:
.LBB77:
	.loc 2 30 18
	mov	10, %o0
	.loc 2 31 5
#APP
! 31 "runtime/plug.h" 1
	ta 2
! 0 "" 2
#NO_APP
.LBE77:
.LBE76:
	.loc 1 46 32
	add	%i1, 1, %i1
	.loc 1 46 23
	cmp	%i1, %o5
	bl	.L18
	 nop
.L19:
.LBE64:
	.loc 1 51 1
	mov	0, %i0
	restore
	jmp	%o7+8
	 nop
.L3:
	mov	%g1, %i5
	.loc 1 41 39 discriminator 2
	add	%g1, 1, %g1
	.loc 1 41 43 discriminator 2
	stb	%g0, [%o5+%i5]
	.loc 1 41 22 discriminator 2
	cmp	%g1, 16
	bne	.L3
	 nop
.LBB78:
.LBB60:
.LBB52:
.LBB50:
.LBB48:
	.loc 1 13 21
	ldub	[%o5], %o1
	ldsb	[%o5], %g1
	cmp	%g1, 0
	be	.L25
	 nop
	.loc 1 13 25
	mov	%o1, %i4
	.loc 1 13 14
	mov	0, %i5
.LBE48:
	.loc 1 12 14
	mov	%o3, %g1
.L7:
.LBB49:
	.loc 1 13 41
	sll	%g1, 5, %i3
	add	%i3, %g1, %g1
	.loc 1 13 48
	and	%i4, 0xff, %i4
	.loc 1 13 37
	xor	%i4, %g1, %g1
	.loc 1 13 31
	add	%i5, 1, %i5
	.loc 1 13 21
	ldub	[%o5+%i5], %i4
	ldsb	[%o5+%i5], %i3
	cmp	%i3, 0
	bne	.L7
	 nop
.L6:
.LBE49:
	.loc 1 14 14
	and	%g1, 63, %g1
.LBE50:
.LBE52:
.LBB53:
	.loc 1 18 23
	sll	%g1, 2, %i1
	ld	[%o4+%i1], %l0
	.loc 1 18 38
	cmp	%l0, 0
	be	.L8
	 nop
	.loc 1 18 23
	mov	%l0, %i0
.L13:
	.loc 1 19 13
	mov	%i0, %i4
.LBB44:
.LBB45:
	.loc 2 79 12
	ldub	[%i0], %g1
	.loc 2 79 15
	sll	%g1, 24, %g1
	mov	%o1, %i5
	mov	%o5, %i3
	cmp	%g1, 0
	bne	.L9
	 nop
	b,a	.L46
.L11:
	.loc 2 79 29
	add	%i4, 1, %i4
	.loc 2 79 34
	add	%i3, 1, %i2
	.loc 2 79 12
	ldub	[%i4], %g1
	.loc 2 80 47
	ldub	[%i3+1], %i5
	.loc 2 79 15
	sll	%g1, 24, %g1
	cmp	%g1, 0
	be	.L47
	 nop
	.loc 2 79 34
	mov	%i2, %i3
.L9:
	.loc 2 79 15
	sll	%i5, 24, %i5
	cmp	%i5, %g1
	be	.L11
	 nop
.L10:
.LBE45:
.LBE44:
	.loc 1 19 12
	cmp	%i5, %g1
	be	.L48
	 nop
.L12:
	.loc 1 18 43
	ld	[%i0+20], %i0
	.loc 1 18 38
	cmp	%i0, 0
	bne	.L13
	 nop
.L8:
.LBE53:
	.loc 1 21 14
	ld	[%o2+%lo(made)], %g1
	.loc 1 21 8
	cmp	%g1, 500
	be	.L49
	 nop
	.loc 1 22 33
	add	%g1, 1, %i5
	st	%i5, [%o2+%lo(made)]
	.loc 1 22 18
	add	%g1, %g1, %i4
	add	%i4, %g1, %i4
	sll	%i4, 3, %i5
	sethi	%hi(nodes), %i0
	or	%i0, %lo(nodes), %i0
	add	%i0, %i5, %i5
.LBB54:
.LBB55:
	.loc 2 43 17
	mov	0, %g1
	b,a	.L16
.L50:
	.loc 2 43 74
	ldub	[%o5+%g1], %o1
.L16:
	.loc 2 43 52
	stb	%o1, [%i5+%g1]
	.loc 2 43 32
	add	%g1, 1, %g1
	.loc 2 43 26
	cmp	%g1, 16
	bne	.L50
	 nop
.LBE55:
.LBE54:
	.loc 1 24 14
	sll	%i4, 3, %g1
	add	%i0, %g1, %g1
	mov	1, %i4
	st	%i4, [%g1+16]
	.loc 1 25 13
	st	%l0, [%g1+20]
	.loc 1 26 15
	st	%i5, [%o4+%i1]
	b,a	.L4
.L2:
.LBE60:
.LBE78:
	.loc 1 39 16
	cmp	%g1, 14
	bg	.L5
	 nop
	.loc 1 39 48 discriminator 1
	or	%o0, 32, %i5
	.loc 1 39 44 discriminator 1
	stb	%i5, [%o5+%g1]
	.loc 1 39 40 discriminator 1
	add	%g1, 1, %g1
	b,a	.L5
.L47:
	sll	%i5, 24, %i5
.LBB79:
.LBB61:
.LBB56:
	.loc 1 19 12
	cmp	%i5, %g1
	bne	.L12
	 nop
.L48:
	.loc 1 19 51
	ld	[%i0+16], %g1
	add	%g1, 1, %g1
	st	%g1, [%i0+16]
	.loc 1 19 55
	b,a	.L4
.L46:
	sll	%o1, 24, %i5
	b,a	.L10
.L25:
.LBE56:
.LBB57:
.LBB51:
	.loc 1 12 14
	sethi	%hi(5120), %g1
	or	%g1, 261, %g1
	b,a	.L6
.L49:
.LBE51:
.LBE57:
.LBB58:
.LBB59:
	.loc 2 36 18
	mov	2, %o0
	.loc 2 37 5
#APP
! 37 "runtime/plug.h" 1
	ta 0
! 0 "" 2
#NO_APP
.LBE59:
.LBE58:
.LBE61:
.LBE79:
	.cfi_endproc
.LFE16:
	.size	main, .-main
	.local	word
	.common	word,16,8
	.local	bucket
	.common	bucket,256,4
	.local	made
	.common	made,4,4
	.local	nodes
	.common	nodes,12000,4
	.section	".text"
.Letext0:
