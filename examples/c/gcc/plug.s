	.file	"plug.c"
	.section	".text"
.Ltext0:
	.cfi_sections	.debug_frame
	.file 0 "." "runtime/plug.c"
	.align 4
	.global memcpy
	.type	memcpy, #function
	.proc	0120
memcpy:
.LFB0:
	.file 1 "runtime/plug.c"
	.loc 1 8 52
	.cfi_startproc
.LBB102:
	.loc 1 9 26
	cmp	%o2, 0
	be	.L2
	 nop
	.loc 1 9 17
	mov	0, %g1
.L3:
	.loc 1 9 74 discriminator 3
	ldub	[%o1+%g1], %o5
	.loc 1 9 52 discriminator 3
	stb	%o5, [%o0+%g1]
	.loc 1 9 32 discriminator 3
	add	%g1, 1, %g1
	.loc 1 9 26 discriminator 3
	cmp	%o2, %g1
	bgu	.L3
	 nop
.L2:
.LBE102:
	.loc 1 11 1
	jmp	%o7+8
	 nop
	.cfi_endproc
.LFE0:
	.size	memcpy, .-memcpy
	.align 4
	.global memmove
	.type	memmove, #function
	.proc	0120
memmove:
.LFB1:
	.loc 1 13 53
	.cfi_startproc
	.loc 1 14 8
	cmp	%o0, %o1
	blu	.L10
	 nop
	.loc 1 17 17
	add	%o2, -1, %g1
	.loc 1 17 20
	cmp	%o2, 0
	be	.L20
	 nop
.L11:
	.loc 1 17 63 discriminator 2
	ldub	[%o1+%g1], %o5
	.loc 1 17 41 discriminator 2
	stb	%o5, [%o0+%g1]
	.loc 1 17 20 discriminator 2
	orcc	%g1, 0, %o5
	add	%g1, -1, %g1
	bne	.L11
	 nop
.L12:
	.loc 1 20 1
	jmp	%o7+8
	 nop
.L10:
.LBB103:
	.loc 1 15 30
	cmp	%o2, 0
	be	.L12
	 nop
	.loc 1 15 21
	mov	0, %g1
.L13:
	.loc 1 15 78 discriminator 3
	ldub	[%o1+%g1], %o5
	.loc 1 15 56 discriminator 3
	stb	%o5, [%o0+%g1]
	.loc 1 15 36 discriminator 3
	add	%g1, 1, %g1
	.loc 1 15 30 discriminator 3
	cmp	%o2, %g1
	bgu	.L13
	 nop
	jmp	%o7+8
	 nop
.L20:
	jmp	%o7+8
	 nop
.LBE103:
	.cfi_endproc
.LFE1:
	.size	memmove, .-memmove
	.align 4
	.global memset
	.type	memset, #function
	.proc	0120
memset:
.LFB2:
	.loc 1 22 41
	.cfi_startproc
.LBB104:
	.loc 1 23 26
	cmp	%o2, 0
	be	.L22
	 nop
	.loc 1 23 17
	mov	0, %g1
.L23:
	.loc 1 23 52 discriminator 3
	stb	%o1, [%o0+%g1]
	.loc 1 23 32 discriminator 3
	add	%g1, 1, %g1
	.loc 1 23 26 discriminator 3
	cmp	%o2, %g1
	bgu	.L23
	 nop
.L22:
.LBE104:
	.loc 1 25 1
	jmp	%o7+8
	 nop
	.cfi_endproc
.LFE2:
	.size	memset, .-memset
	.align 4
	.global memcmp
	.type	memcmp, #function
	.proc	04
memcmp:
.LFB3:
	.loc 1 27 52
	.cfi_startproc
.LBB105:
	.loc 1 28 26
	cmp	%o2, 0
	be	.L31
	 nop
	.loc 1 28 17
	mov	0, %g1
	b,a	.L30
.L33:
	.loc 1 28 32 discriminator 2
	add	%g1, 1, %g1
	.loc 1 28 26 discriminator 2
	cmp	%o2, %g1
	bleu	.L28
	 nop
.L30:
.LBB106:
	.loc 1 29 46
	ldub	[%o0+%g1], %o5
	.loc 1 29 78
	ldub	[%o1+%g1], %o4
	.loc 1 30 12
	subcc	%o5, %o4, %o5
	be	.L33
	 nop
.L28:
.LBE106:
.LBE105:
	.loc 1 33 1
	mov	%o5, %o0
	jmp	%o7+8
	 nop
.L31:
	.loc 1 32 12
	mov	0, %o5
	b,a	.L28
	.cfi_endproc
.LFE3:
	.size	memcmp, .-memcmp
	.align 4
	.global __ashldi3
	.type	__ashldi3, #function
	.proc	017
__ashldi3:
.LFB7:
	.loc 1 39 29
	.cfi_startproc
	.loc 1 40 8
	andcc	%o2, 32, %g0
	bne	.L38
	 nop
	.loc 1 41 71
	cmp	%o2, 0
	be	.L34
	 nop
	.loc 1 41 31
	sll	%o0, %o2, %o0
	.loc 1 41 52
	sub	%g0, %o2, %g1
	.loc 1 41 45
	srl	%o1, %g1, %g1
.LBB107:
.LBB108:
	.loc 1 37 63
	or	%o0, %g1, %o0
	sll	%o1, %o2, %o1
.L34:
.LBE108:
.LBE107:
	.loc 1 42 1
	jmp	%o7+8
	 nop
.L38:
	.loc 1 40 24
	sll	%o1, %o2, %o0
.LBB109:
.LBB110:
	.loc 1 37 57
	mov	0, %o1
.LBE110:
.LBE109:
	.loc 1 40 24
	jmp	%o7+8
	 nop
	.cfi_endproc
.LFE7:
	.size	__ashldi3, .-__ashldi3
	.align 4
	.global __lshrdi3
	.type	__lshrdi3, #function
	.proc	017
__lshrdi3:
.LFB8:
	.loc 1 44 29
	.cfi_startproc
	.loc 1 45 8
	andcc	%o2, 32, %g0
	bne	.L43
	 nop
	.loc 1 46 72
	cmp	%o2, 0
	be	.L39
	 nop
	.loc 1 46 66
	sub	%g0, %o2, %g1
	.loc 1 46 59
	sll	%o0, %g1, %g1
	.loc 1 46 44
	srl	%o1, %o2, %o1
	.loc 1 46 16
	srl	%o0, %o2, %o0
.LBB111:
.LBB112:
	.loc 1 37 63
	or	%g1, %o1, %o1
.L39:
.LBE112:
.LBE111:
	.loc 1 47 1
	jmp	%o7+8
	 nop
.L43:
	.loc 1 45 32
	srl	%o0, %o2, %o1
	mov	0, %o0
	jmp	%o7+8
	 nop
	.cfi_endproc
.LFE8:
	.size	__lshrdi3, .-__lshrdi3
	.align 4
	.global __ashrdi3
	.type	__ashrdi3, #function
	.proc	05
__ashrdi3:
.LFB9:
	.loc 1 49 29
	.cfi_startproc
	mov	%o0, %g1
	.loc 1 51 8
	andcc	%o2, 32, %g0
	bne	.L48
	 nop
	.loc 1 52 86
	cmp	%o2, 0
	be	.L47
	 nop
	.loc 1 52 80 discriminator 1
	sub	%g0, %o2, %o5
	.loc 1 52 73 discriminator 1
	sll	%o0, %o5, %o5
	.loc 1 52 57 discriminator 1
	srl	%o1, %o2, %o1
	.loc 1 52 38 discriminator 1
	sra	%o0, %o2, %o0
.LBB113:
.LBB114:
	.loc 1 37 63 discriminator 1
	or	%o5, %o1, %o1
.LBE114:
.LBE113:
	jmp	%o7+8
	 nop
.L47:
	.loc 1 53 1
	jmp	%o7+8
	 nop
.L48:
.LBB115:
.LBB116:
	.loc 1 37 63 discriminator 1
	sra	%o0, 31, %o0
	sra	%g1, %o2, %o1
.LBE116:
.LBE115:
	.loc 1 51 24 discriminator 1
	jmp	%o7+8
	 nop
	.cfi_endproc
.LFE9:
	.size	__ashrdi3, .-__ashrdi3
	.align 4
	.global __muldi3
	.type	__muldi3, #function
	.proc	017
__muldi3:
.LFB10:
	.loc 1 55 28
	.cfi_startproc
	mov	%o1, %o4
	.loc 1 55 74
	smul	%o2, %o1, %o2
	.loc 1 55 94
	smul	%o0, %o3, %o5
.LBB117:
.LBB118:
	.loc 1 37 57
	add	%o2, %o5, %o0
	mov	0, %o1
.LBE118:
.LBE117:
	.loc 1 55 49
	umul	%o3, %o4, %o5
	rd	%y, %o4
	.loc 1 55 108
	addcc	%o1, %o5, %o1
	addx	%o0, %o4, %o0
	jmp	%o7+8
	 nop
	.cfi_endproc
.LFE10:
	.size	__muldi3, .-__muldi3
	.align 4
	.global __udivdi3
	.type	__udivdi3, #function
	.proc	017
__udivdi3:
.LFB13:
	.loc 1 76 30
	.cfi_startproc
	save	%sp, -96, %sp
	.cfi_window_save
	.cfi_register 15, 31
	.cfi_def_cfa_register 30
	mov	%i0, %o4
	mov	%i1, %o5
	mov	%i2, %o0
	mov	%i3, %o1
.LBB119:
.LBB120:
.LBB121:
	.loc 1 60 14
	mov	0, %g1
.LBE121:
	.loc 1 59 9
	mov	0, %i0
	mov	0, %i1
	.loc 1 59 23
	mov	0, %i4
	mov	0, %i5
.L54:
.LBB123:
.LBB122:
	.loc 1 61 13
	srl	%i4, 31, %i3
	.loc 1 62 21
	addcc	%i5, %i5, %o3
	addx	%i4, %i4, %o2
	.loc 1 62 36
	srl	%o4, 31, %i2
	.loc 1 62 14
	mov	%o2, %i4
	or	%i2, %o3, %i5
	.loc 1 63 11
	addcc	%o5, %o5, %o3
	addx	%o4, %o4, %o2
	mov	%o2, %o4
	mov	%o3, %o5
	.loc 1 64 18
	addcc	%i1, %i1, %o3
	addx	%i0, %i0, %o2
	mov	%o2, %i0
	mov	%o3, %i1
	.loc 1 65 12
	cmp	%i3, 0
	bne	.L51
	 nop
	.loc 1 65 19
	cmp	%o0, %i4
	bgu	.L52
	 nop
	bne	.L51
	 nop
	cmp	%o1, %i5
	bgu	.L52
	 nop
.L51:
	.loc 1 66 18
	subcc	%i5, %o1, %i5
	subx	%i4, %o0, %i4
	.loc 1 67 22
	mov	%o2, %i0
	or	%o3, 1, %i1
.L52:
.LBE122:
	.loc 1 60 30
	add	%g1, 1, %g1
	.loc 1 60 23
	cmp	%g1, 64
	bne	.L54
	 nop
.LBE123:
.LBE120:
.LBE119:
	.loc 1 79 1
	restore
	jmp	%o7+8
	 nop
	.cfi_endproc
.LFE13:
	.size	__udivdi3, .-__udivdi3
	.align 4
	.global __umoddi3
	.type	__umoddi3, #function
	.proc	017
__umoddi3:
.LFB14:
	.loc 1 81 30
	.cfi_startproc
	save	%sp, -96, %sp
	.cfi_window_save
	.cfi_register 15, 31
	.cfi_def_cfa_register 30
	mov	%i2, %o0
	mov	%i3, %o1
.LBB124:
.LBB125:
.LBB126:
	.loc 1 60 14
	mov	0, %g1
.LBE126:
	.loc 1 59 23
	mov	0, %i4
	mov	0, %i5
.L60:
.LBB129:
.LBB127:
	.loc 1 61 13
	srl	%i4, 31, %i3
	.loc 1 62 21
	addcc	%i5, %i5, %o5
	addx	%i4, %i4, %o4
	.loc 1 62 36
	srl	%i0, 31, %o3
	.loc 1 62 14
	mov	%o4, %i4
	or	%o3, %o5, %i5
	.loc 1 63 11
	addcc	%i1, %i1, %o5
	addx	%i0, %i0, %o4
	mov	%o4, %i0
	mov	%o5, %i1
	.loc 1 65 12
	cmp	%i3, 0
	bne	.L57
	 nop
	.loc 1 65 19
	cmp	%o0, %i4
	bgu	.L58
	 nop
	bne	.L57
	 nop
	cmp	%o1, %i5
	bleu	.L57
	 nop
.L58:
.LBE127:
	.loc 1 60 30
	add	%g1, 1, %g1
	.loc 1 60 23
	cmp	%g1, 64
	bne	.L60
	 nop
.L62:
.LBE129:
.LBE125:
.LBE124:
	.loc 1 85 1
	mov	%i4, %i0
	mov	%i5, %i1
	restore
	jmp	%o7+8
	 nop
.L57:
.LBB132:
.LBB131:
.LBB130:
.LBB128:
	.loc 1 66 18
	subcc	%i5, %o1, %i5
	subx	%i4, %o0, %i4
.LBE128:
	.loc 1 60 30
	add	%g1, 1, %g1
	.loc 1 60 23
	cmp	%g1, 64
	bne	.L60
	 nop
	b,a	.L62
.LBE130:
.LBE131:
.LBE132:
	.cfi_endproc
.LFE14:
	.size	__umoddi3, .-__umoddi3
	.align 4
	.global __divdi3
	.type	__divdi3, #function
	.proc	05
__divdi3:
.LFB15:
	.loc 1 87 29
	.cfi_startproc
	save	%sp, -96, %sp
	.cfi_window_save
	.cfi_register 15, 31
	.cfi_def_cfa_register 30
.LBB133:
.LBB134:
	.loc 1 74 47
	mov	%i0, %o2
	mov	%i1, %o3
	.loc 1 74 54
	cmp	%i0, 0
	bge	.L64
	 nop
	subcc	%g0, %i1, %o3
	subx	%g0, %i0, %o2
.L64:
.LBE134:
.LBE133:
.LBB135:
.LBB136:
	.loc 1 74 47
	mov	%i2, %l0
	mov	%i3, %l1
	.loc 1 74 54
	cmp	%i2, 0
	bge	.L66
	 nop
	subcc	%g0, %i3, %l1
	subx	%g0, %i2, %l0
.L66:
.LBE136:
.LBE135:
.LBB137:
.LBB138:
.LBB139:
	.loc 1 60 14
	mov	0, %g1
.LBE139:
	.loc 1 59 9
	mov	0, %o4
	mov	0, %o5
	.loc 1 59 23
	mov	0, %i4
	mov	0, %i5
.L71:
.LBB141:
.LBB140:
	.loc 1 61 13
	srl	%i4, 31, %i3
	.loc 1 62 21
	addcc	%i5, %i5, %o1
	addx	%i4, %i4, %o0
	.loc 1 62 36
	srl	%o2, 31, %i1
	.loc 1 62 14
	mov	%o0, %i4
	or	%i1, %o1, %i5
	.loc 1 63 11
	addcc	%o3, %o3, %o1
	addx	%o2, %o2, %o0
	mov	%o0, %o2
	mov	%o1, %o3
	.loc 1 64 18
	addcc	%o5, %o5, %o1
	addx	%o4, %o4, %o0
	mov	%o0, %o4
	mov	%o1, %o5
	.loc 1 65 12
	cmp	%i3, 0
	bne	.L68
	 nop
	.loc 1 65 19
	cmp	%l0, %i4
	bgu	.L69
	 nop
	bne	.L68
	 nop
	cmp	%l1, %i5
	bgu	.L69
	 nop
.L68:
	.loc 1 66 18
	subcc	%i5, %l1, %i5
	subx	%i4, %l0, %i4
	.loc 1 67 22
	mov	%o0, %o4
	or	%o1, 1, %o5
.L69:
.LBE140:
	.loc 1 60 30
	add	%g1, 1, %g1
	.loc 1 60 23
	cmp	%g1, 64
	bne	.L71
	 nop
.LBE141:
.LBE138:
.LBE137:
	.loc 1 89 12
	xorcc	%i0, %i2, %g0
	bge	.L72
	 nop
	subcc	%g0, %o5, %o5
	subx	%g0, %o4, %o4
.L72:
	.loc 1 90 1 discriminator 4
	mov	%o4, %i0
	mov	%o5, %i1
	restore
	jmp	%o7+8
	 nop
	.cfi_endproc
.LFE15:
	.size	__divdi3, .-__divdi3
	.align 4
	.global __moddi3
	.type	__moddi3, #function
	.proc	05
__moddi3:
.LFB16:
	.loc 1 92 29
	.cfi_startproc
	save	%sp, -96, %sp
	.cfi_window_save
	.cfi_register 15, 31
	.cfi_def_cfa_register 30
.LBB142:
.LBB143:
	.loc 1 74 47
	mov	%i0, %o4
	mov	%i1, %o5
	.loc 1 74 54
	cmp	%i0, 0
	bge	.L76
	 nop
	subcc	%g0, %i1, %o5
	subx	%g0, %i0, %o4
.L76:
.LBE143:
.LBE142:
.LBB144:
.LBB145:
	.loc 1 74 47
	mov	%i2, %o0
	mov	%i3, %o1
	.loc 1 74 54
	cmp	%i2, 0
	bge	.L78
	 nop
	subcc	%g0, %i3, %o1
	subx	%g0, %i2, %o0
.L78:
.LBE145:
.LBE144:
.LBB146:
.LBB147:
.LBB148:
	.loc 1 60 14
	mov	0, %g1
.LBE148:
	.loc 1 59 23
	mov	0, %i4
	mov	0, %i5
.L83:
.LBB151:
.LBB149:
	.loc 1 61 13
	srl	%i4, 31, %i1
	.loc 1 62 21
	addcc	%i5, %i5, %i3
	addx	%i4, %i4, %i2
	.loc 1 62 36
	srl	%o4, 31, %o3
	.loc 1 62 14
	mov	%i2, %i4
	or	%o3, %i3, %i5
	.loc 1 63 11
	addcc	%o5, %o5, %i3
	addx	%o4, %o4, %i2
	mov	%i2, %o4
	mov	%i3, %o5
	.loc 1 65 12
	cmp	%i1, 0
	bne	.L80
	 nop
	.loc 1 65 19
	cmp	%o0, %i4
	bgu	.L81
	 nop
	bne	.L80
	 nop
	cmp	%o1, %i5
	bleu	.L80
	 nop
.L81:
.LBE149:
	.loc 1 60 30
	add	%g1, 1, %g1
	.loc 1 60 23
	cmp	%g1, 64
	bne	.L83
	 nop
.L87:
.LBE151:
.LBE147:
.LBE146:
	.loc 1 95 12
	cmp	%i0, 0
	bge	.L84
	 nop
	subcc	%g0, %i5, %i5
	subx	%g0, %i4, %i4
.L84:
	.loc 1 96 1 discriminator 4
	mov	%i4, %i0
	mov	%i5, %i1
	restore
	jmp	%o7+8
	 nop
.L80:
.LBB154:
.LBB153:
.LBB152:
.LBB150:
	.loc 1 66 18
	subcc	%i5, %o1, %i5
	subx	%i4, %o0, %i4
.LBE150:
	.loc 1 60 30
	add	%g1, 1, %g1
	.loc 1 60 23
	cmp	%g1, 64
	bne	.L83
	 nop
	b,a	.L87
.LBE152:
.LBE153:
.LBE154:
	.cfi_endproc
.LFE16:
	.size	__moddi3, .-__moddi3
	.align 4
	.global __cmpdi2
	.type	__cmpdi2, #function
	.proc	04
__cmpdi2:
.LFB17:
	.loc 1 99 28
	.cfi_startproc
	.loc 1 99 47
	cmp	%o2, %o0
	bg	.L91
	 nop
	be	.L94
	 nop
.L93:
	.loc 1 99 60 discriminator 1
	cmp	%o0, %o2
	be	.L95
	 nop
.L92:
	.loc 1 99 60 is_stmt 0
	mov	2, %o0
	.loc 1 99 65 is_stmt 1
	jmp	%o7+8
	 nop
.L94:
	.loc 1 99 47
	cmp	%o3, %o1
	bleu	.L93
	 nop
.L91:
	mov	0, %o0
	jmp	%o7+8
	 nop
.L95:
	.loc 1 99 60 discriminator 1
	cmp	%o1, %o3
	bne	.L92
	 nop
	.loc 1 99 60 is_stmt 0
	mov	1, %o0
	jmp	%o7+8
	 nop
	.cfi_endproc
.LFE17:
	.size	__cmpdi2, .-__cmpdi2
	.align 4
	.global __ucmpdi2
	.type	__ucmpdi2, #function
	.proc	04
__ucmpdi2:
.LFB18:
	.loc 1 100 29 is_stmt 1
	.cfi_startproc
	.loc 1 100 48
	cmp	%o2, %o0
	bgu	.L99
	 nop
	be	.L102
	 nop
.L101:
	.loc 1 100 61 discriminator 1
	cmp	%o0, %o2
	be	.L103
	 nop
.L100:
	.loc 1 100 61 is_stmt 0
	mov	2, %o0
	.loc 1 100 66 is_stmt 1
	jmp	%o7+8
	 nop
.L102:
	.loc 1 100 48
	cmp	%o3, %o1
	bleu	.L101
	 nop
.L99:
	mov	0, %o0
	jmp	%o7+8
	 nop
.L103:
	.loc 1 100 61 discriminator 1
	cmp	%o1, %o3
	bne	.L100
	 nop
	.loc 1 100 61 is_stmt 0
	mov	1, %o0
	jmp	%o7+8
	 nop
	.cfi_endproc
.LFE18:
	.size	__ucmpdi2, .-__ucmpdi2
	.align 4
	.global __clzsi2
	.type	__clzsi2, #function
	.proc	04
__clzsi2:
.LFB19:
	.loc 1 102 21 is_stmt 1
	.cfi_startproc
	mov	%o0, %o4
.LBB155:
	.loc 1 104 14
	mov	16, %g1
.LBE155:
	.loc 1 103 9
	mov	0, %o0
.LBB156:
	.loc 1 105 22
	mov	32, %o3
.L106:
	sub	%o3, %g1, %o5
	.loc 1 105 15
	srl	%o4, %o5, %o5
	.loc 1 105 12
	cmp	%o5, 0
	bne	.L105
	 nop
	.loc 1 106 15
	add	%o0, %g1, %o0
	.loc 1 107 15
	sll	%o4, %g1, %o4
.L105:
	.loc 1 104 40 discriminator 2
	sra	%g1, 1, %g1
	.loc 1 104 30 discriminator 2
	cmp	%g1, 0
	bne	.L106
	 nop
.LBE156:
	.loc 1 111 1
	jmp	%o7+8
	 nop
	.cfi_endproc
.LFE19:
	.size	__clzsi2, .-__clzsi2
	.align 4
	.global __ctzsi2
	.type	__ctzsi2, #function
	.proc	04
__ctzsi2:
.LFB20:
	.loc 1 113 21
	.cfi_startproc
	.loc 1 113 48
	sub	%g0, %o0, %o4
	.loc 1 113 35
	and	%o4, %o0, %o4
.LBB157:
.LBB158:
	.loc 1 103 9
	mov	0, %o3
.LBB159:
	.loc 1 104 14
	mov	16, %g1
	.loc 1 105 22
	mov	32, %o2
.L110:
	sub	%o2, %g1, %o5
	.loc 1 105 15
	srl	%o4, %o5, %o5
	.loc 1 105 12
	cmp	%o5, 0
	bne	.L109
	 nop
	.loc 1 106 15
	add	%o3, %g1, %o3
	.loc 1 107 15
	sll	%o4, %g1, %o4
.L109:
	.loc 1 104 40
	sra	%g1, 1, %g1
	.loc 1 104 30
	cmp	%g1, 0
	bne	.L110
	 nop
.LBE159:
.LBE158:
.LBE157:
	.loc 1 113 53
	mov	31, %o0
	sub	%o0, %o3, %o0
	jmp	%o7+8
	 nop
	.cfi_endproc
.LFE20:
	.size	__ctzsi2, .-__ctzsi2
	.align 4
	.global __ffssi2
	.type	__ffssi2, #function
	.proc	04
__ffssi2:
.LFB21:
	.loc 1 115 21
	.cfi_startproc
	mov	%o0, %g1
	.loc 1 115 50
	mov	0, %o0
	cmp	%g1, 0
	be	.L112
	 nop
.LBB160:
.LBB161:
	.loc 1 113 48
	sub	%g0, %g1, %o4
	.loc 1 113 35
	and	%o4, %g1, %o4
.LBB162:
.LBB163:
	.loc 1 103 9
	mov	0, %o3
.LBB164:
	.loc 1 104 14
	mov	16, %g1
	.loc 1 105 22
	mov	32, %o2
.L115:
	sub	%o2, %g1, %o5
	.loc 1 105 15
	srl	%o4, %o5, %o5
	.loc 1 105 12
	cmp	%o5, 0
	bne	.L114
	 nop
	.loc 1 106 15
	add	%o3, %g1, %o3
	.loc 1 107 15
	sll	%o4, %g1, %o4
.L114:
	.loc 1 104 40
	sra	%g1, 1, %g1
	.loc 1 104 30
	cmp	%g1, 0
	bne	.L115
	 nop
.LBE164:
.LBE163:
.LBE162:
.LBE161:
.LBE160:
	.loc 1 115 50
	mov	32, %o0
	sub	%o0, %o3, %o0
.L112:
	.loc 1 115 55
	jmp	%o7+8
	 nop
	.cfi_endproc
.LFE21:
	.size	__ffssi2, .-__ffssi2
	.align 4
	.global __popcountsi2
	.type	__popcountsi2, #function
	.proc	04
__popcountsi2:
.LFB22:
	.loc 1 117 26
	.cfi_startproc
	.loc 1 118 12
	srl	%o0, 1, %g1
	.loc 1 118 17
	sethi	%hi(1431655424), %o5
	or	%o5, 341, %o5
	and	%g1, %o5, %g1
	.loc 1 118 7
	sub	%o0, %g1, %o0
	.loc 1 119 12
	sethi	%hi(858992640), %o5
	or	%o5, 819, %o5
	and	%o0, %o5, %g1
	.loc 1 119 31
	srl	%o0, 2, %o0
	.loc 1 119 36
	and	%o0, %o5, %o0
	.loc 1 119 7
	add	%g1, %o0, %g1
	.loc 1 120 17
	srl	%g1, 4, %o0
	.loc 1 120 12
	add	%o0, %g1, %o0
	.loc 1 120 7
	sethi	%hi(252644352), %g1
	or	%g1, 783, %g1
	and	%o0, %g1, %o0
	.loc 1 121 20
	sethi	%hi(16842752), %g1
	or	%g1, 257, %g1
	smul	%o0, %g1, %o0
	.loc 1 122 1
	srl	%o0, 24, %o0
	jmp	%o7+8
	 nop
	.cfi_endproc
.LFE22:
	.size	__popcountsi2, .-__popcountsi2
	.align 4
	.global __paritysi2
	.type	__paritysi2, #function
	.proc	04
__paritysi2:
.LFB23:
	.loc 1 124 24
	.cfi_startproc
.LBB165:
.LBB166:
	.loc 1 118 12
	srl	%o0, 1, %g1
	.loc 1 118 17
	sethi	%hi(1431655424), %o5
	or	%o5, 341, %o5
	and	%g1, %o5, %g1
	.loc 1 118 7
	sub	%o0, %g1, %o0
	.loc 1 119 12
	sethi	%hi(858992640), %o5
	or	%o5, 819, %o5
	and	%o0, %o5, %g1
	.loc 1 119 31
	srl	%o0, 2, %o0
	.loc 1 119 36
	and	%o0, %o5, %o0
	.loc 1 119 7
	add	%g1, %o0, %g1
	.loc 1 120 17
	srl	%g1, 4, %o0
	.loc 1 120 12
	add	%o0, %g1, %o0
	.loc 1 120 7
	sethi	%hi(252644352), %g1
	or	%g1, 783, %g1
	and	%o0, %g1, %o0
	.loc 1 121 20
	sethi	%hi(16842752), %g1
	or	%g1, 257, %g1
	smul	%o0, %g1, %o0
	.loc 1 121 33
	srl	%o0, 24, %o0
.LBE166:
.LBE165:
	.loc 1 124 55
	and	%o0, 1, %o0
	jmp	%o7+8
	 nop
	.cfi_endproc
.LFE23:
	.size	__paritysi2, .-__paritysi2
	.align 4
	.global __bswapsi2
	.type	__bswapsi2, #function
	.proc	016
__bswapsi2:
.LFB24:
	.loc 1 126 23
	.cfi_startproc
	.loc 1 126 34
	sll	%o0, 24, %g1
	.loc 1 126 84
	srl	%o0, 24, %o5
	.loc 1 126 80
	or	%g1, %o5, %g1
	.loc 1 126 55
	sll	%o0, 8, %o5
	sethi	%hi(16711680), %o4
	and	%o5, %o4, %o5
	.loc 1 126 80
	or	%g1, %o5, %g1
	.loc 1 126 65
	srl	%o0, 8, %o0
	.loc 1 126 70
	sethi	%hi(64512), %o5
	or	%o5, 768, %o5
	and	%o0, %o5, %o0
	.loc 1 126 91
	or	%g1, %o0, %o0
	jmp	%o7+8
	 nop
	.cfi_endproc
.LFE24:
	.size	__bswapsi2, .-__bswapsi2
.Letext0:
	.section	.debug_info,"",@progbits
.Ldebug_info0:
	.uaword	0x2df
	.uahalf	0x5
	.byte	0x1
	.byte	0x4
	.uaword	.Ldebug_abbrev0
	.uleb128 0x8
	.uaword	.LASF26
	.byte	0x1d
	.uaword	.LASF0
	.uaword	.LASF1
	.uaword	.Ltext0
	.uaword	.Letext0-.Ltext0
	.uaword	.Ldebug_line0
	.uleb128 0x3
	.uaword	.LASF7
	.byte	0x7e
	.byte	0x5
	.uaword	.LFB24
	.uaword	.LFE24-.LFB24
	.uleb128 0x1
	.byte	0x9c
	.uleb128 0x2
	.uaword	.LASF2
	.byte	0x7c
	.uaword	.LFB23
	.uaword	.LFE23-.LFB23
	.uleb128 0x1
	.byte	0x9c
	.uaword	0x5b
	.uleb128 0x1
	.uaword	0x5b
	.uaword	.LBB165
	.uaword	.LBE165-.LBB165
	.byte	0x7c
	.byte	0x21
	.byte	0
	.uleb128 0x5
	.uaword	.LASF4
	.byte	0x75
	.uleb128 0x2
	.uaword	.LASF3
	.byte	0x73
	.uaword	.LFB21
	.uaword	.LFE21-.LFB21
	.uleb128 0x1
	.byte	0x9c
	.uaword	0x96
	.uleb128 0x9
	.uaword	0x96
	.uaword	.LBB160
	.uaword	.LBE160-.LBB160
	.byte	0x1
	.byte	0x73
	.byte	0x22
	.uleb128 0x1
	.uaword	0x9c
	.uaword	.LBB162
	.uaword	.LBE162-.LBB162
	.byte	0x71
	.byte	0x23
	.byte	0
	.byte	0
	.uleb128 0x5
	.uaword	.LASF5
	.byte	0x71
	.uleb128 0x5
	.uaword	.LASF6
	.byte	0x66
	.uleb128 0x3
	.uaword	.LASF8
	.byte	0x64
	.byte	0x5
	.uaword	.LFB18
	.uaword	.LFE18-.LFB18
	.uleb128 0x1
	.byte	0x9c
	.uleb128 0x3
	.uaword	.LASF9
	.byte	0x63
	.byte	0x5
	.uaword	.LFB17
	.uaword	.LFE17-.LFB17
	.uleb128 0x1
	.byte	0x9c
	.uleb128 0x2
	.uaword	.LASF10
	.byte	0x5c
	.uaword	.LFB16
	.uaword	.LFE16-.LFB16
	.uleb128 0x1
	.byte	0x9c
	.uaword	0x105
	.uleb128 0x1
	.uaword	0x18e
	.uaword	.LBB142
	.uaword	.LBE142-.LBB142
	.byte	0x5e
	.byte	0x5
	.uleb128 0x1
	.uaword	0x18e
	.uaword	.LBB144
	.uaword	.LBE144-.LBB144
	.byte	0x5e
	.byte	0x5
	.uleb128 0x6
	.uaword	0x194
	.uaword	.LBB146
	.uaword	.LLRL1
	.byte	0x5e
	.byte	0
	.uleb128 0x2
	.uaword	.LASF11
	.byte	0x57
	.uaword	.LFB15
	.uaword	.LFE15-.LFB15
	.uleb128 0x1
	.byte	0x9c
	.uaword	0x147
	.uleb128 0x1
	.uaword	0x18e
	.uaword	.LBB133
	.uaword	.LBE133-.LBB133
	.byte	0x58
	.byte	0x1a
	.uleb128 0x1
	.uaword	0x18e
	.uaword	.LBB135
	.uaword	.LBE135-.LBB135
	.byte	0x58
	.byte	0x1a
	.uleb128 0x1
	.uaword	0x194
	.uaword	.LBB137
	.uaword	.LBE137-.LBB137
	.byte	0x58
	.byte	0x1a
	.byte	0
	.uleb128 0x2
	.uaword	.LASF12
	.byte	0x51
	.uaword	.LFB14
	.uaword	.LFE14-.LFB14
	.uleb128 0x1
	.byte	0x9c
	.uaword	0x16a
	.uleb128 0x6
	.uaword	0x194
	.uaword	.LBB124
	.uaword	.LLRL0
	.byte	0x53
	.byte	0
	.uleb128 0x2
	.uaword	.LASF13
	.byte	0x4c
	.uaword	.LFB13
	.uaword	.LFE13-.LFB13
	.uleb128 0x1
	.byte	0x9c
	.uaword	0x18e
	.uleb128 0x1
	.uaword	0x194
	.uaword	.LBB119
	.uaword	.LBE119-.LBB119
	.byte	0x4e
	.byte	0xc
	.byte	0
	.uleb128 0x4
	.uaword	.LASF14
	.byte	0x4a
	.uleb128 0x4
	.uaword	.LASF15
	.byte	0x3a
	.uleb128 0x2
	.uaword	.LASF16
	.byte	0x37
	.uaword	.LFB10
	.uaword	.LFE10-.LFB10
	.uleb128 0x1
	.byte	0x9c
	.uaword	0x1be
	.uleb128 0x1
	.uaword	0x248
	.uaword	.LBB117
	.uaword	.LBE117-.LBB117
	.byte	0x37
	.byte	0x3c
	.byte	0
	.uleb128 0x2
	.uaword	.LASF17
	.byte	0x31
	.uaword	.LFB9
	.uaword	.LFE9-.LFB9
	.uleb128 0x1
	.byte	0x9c
	.uaword	0x1f1
	.uleb128 0x1
	.uaword	0x248
	.uaword	.LBB113
	.uaword	.LBE113-.LBB113
	.byte	0x34
	.byte	0x15
	.uleb128 0x1
	.uaword	0x248
	.uaword	.LBB115
	.uaword	.LBE115-.LBB115
	.byte	0x33
	.byte	0x1d
	.byte	0
	.uleb128 0x2
	.uaword	.LASF18
	.byte	0x2c
	.uaword	.LFB8
	.uaword	.LFE8-.LFB8
	.uleb128 0x1
	.byte	0x9c
	.uaword	0x215
	.uleb128 0x1
	.uaword	0x248
	.uaword	.LBB111
	.uaword	.LBE111-.LBB111
	.byte	0x2e
	.byte	0x10
	.byte	0
	.uleb128 0x2
	.uaword	.LASF19
	.byte	0x27
	.uaword	.LFB7
	.uaword	.LFE7-.LFB7
	.uleb128 0x1
	.byte	0x9c
	.uaword	0x248
	.uleb128 0x1
	.uaword	0x248
	.uaword	.LBB107
	.uaword	.LBE107-.LBB107
	.byte	0x29
	.byte	0x10
	.uleb128 0x1
	.uaword	0x248
	.uaword	.LBB109
	.uaword	.LBE109-.LBB109
	.byte	0x28
	.byte	0x18
	.byte	0
	.uleb128 0x4
	.uaword	.LASF20
	.byte	0x25
	.uleb128 0xa
	.asciz	"low"
	.byte	0x1
	.byte	0x24
	.byte	0xc
	.byte	0x1
	.uleb128 0x4
	.uaword	.LASF21
	.byte	0x23
	.uleb128 0x3
	.uaword	.LASF22
	.byte	0x1b
	.byte	0x5
	.uaword	.LFB3
	.uaword	.LFE3-.LFB3
	.uleb128 0x1
	.byte	0x9c
	.uleb128 0x3
	.uaword	.LASF23
	.byte	0x16
	.byte	0x7
	.uaword	.LFB2
	.uaword	.LFE2-.LFB2
	.uleb128 0x1
	.byte	0x9c
	.uleb128 0x3
	.uaword	.LASF24
	.byte	0xd
	.byte	0x7
	.uaword	.LFB1
	.uaword	.LFE1-.LFB1
	.uleb128 0x1
	.byte	0x9c
	.uleb128 0x3
	.uaword	.LASF25
	.byte	0x8
	.byte	0x7
	.uaword	.LFB0
	.uaword	.LFE0-.LFB0
	.uleb128 0x1
	.byte	0x9c
	.uleb128 0x7
	.uaword	0x9c
	.uaword	.LFB19
	.uaword	.LFE19-.LFB19
	.uleb128 0x1
	.byte	0x9c
	.uleb128 0xb
	.uaword	0x96
	.uaword	.LFB20
	.uaword	.LFE20-.LFB20
	.uleb128 0x1
	.byte	0x9c
	.uaword	0x2d3
	.uleb128 0x1
	.uaword	0x9c
	.uaword	.LBB157
	.uaword	.LBE157-.LBB157
	.byte	0x71
	.byte	0x23
	.byte	0
	.uleb128 0x7
	.uaword	0x5b
	.uaword	.LFB22
	.uaword	.LFE22-.LFB22
	.uleb128 0x1
	.byte	0x9c
	.byte	0
	.section	.debug_abbrev,"",@progbits
.Ldebug_abbrev0:
	.uleb128 0x1
	.uleb128 0x1d
	.byte	0
	.uleb128 0x31
	.uleb128 0x13
	.uleb128 0x11
	.uleb128 0x1
	.uleb128 0x12
	.uleb128 0x6
	.uleb128 0x58
	.uleb128 0x21
	.sleb128 1
	.uleb128 0x59
	.uleb128 0xb
	.uleb128 0x57
	.uleb128 0xb
	.byte	0
	.byte	0
	.uleb128 0x2
	.uleb128 0x2e
	.byte	0x1
	.uleb128 0x3f
	.uleb128 0x19
	.uleb128 0x3
	.uleb128 0xe
	.uleb128 0x3a
	.uleb128 0x21
	.sleb128 1
	.uleb128 0x3b
	.uleb128 0xb
	.uleb128 0x39
	.uleb128 0x21
	.sleb128 5
	.uleb128 0x11
	.uleb128 0x1
	.uleb128 0x12
	.uleb128 0x6
	.uleb128 0x40
	.uleb128 0x18
	.uleb128 0x7a
	.uleb128 0x19
	.uleb128 0x1
	.uleb128 0x13
	.byte	0
	.byte	0
	.uleb128 0x3
	.uleb128 0x2e
	.byte	0
	.uleb128 0x3f
	.uleb128 0x19
	.uleb128 0x3
	.uleb128 0xe
	.uleb128 0x3a
	.uleb128 0x21
	.sleb128 1
	.uleb128 0x3b
	.uleb128 0xb
	.uleb128 0x39
	.uleb128 0xb
	.uleb128 0x11
	.uleb128 0x1
	.uleb128 0x12
	.uleb128 0x6
	.uleb128 0x40
	.uleb128 0x18
	.uleb128 0x7a
	.uleb128 0x19
	.byte	0
	.byte	0
	.uleb128 0x4
	.uleb128 0x2e
	.byte	0
	.uleb128 0x3
	.uleb128 0xe
	.uleb128 0x3a
	.uleb128 0x21
	.sleb128 1
	.uleb128 0x3b
	.uleb128 0xb
	.uleb128 0x39
	.uleb128 0x21
	.sleb128 12
	.uleb128 0x20
	.uleb128 0x21
	.sleb128 1
	.byte	0
	.byte	0
	.uleb128 0x5
	.uleb128 0x2e
	.byte	0
	.uleb128 0x3f
	.uleb128 0x19
	.uleb128 0x3
	.uleb128 0xe
	.uleb128 0x3a
	.uleb128 0x21
	.sleb128 1
	.uleb128 0x3b
	.uleb128 0xb
	.uleb128 0x39
	.uleb128 0x21
	.sleb128 5
	.uleb128 0x20
	.uleb128 0x21
	.sleb128 1
	.byte	0
	.byte	0
	.uleb128 0x6
	.uleb128 0x1d
	.byte	0
	.uleb128 0x31
	.uleb128 0x13
	.uleb128 0x52
	.uleb128 0x1
	.uleb128 0x55
	.uleb128 0x17
	.uleb128 0x58
	.uleb128 0x21
	.sleb128 1
	.uleb128 0x59
	.uleb128 0xb
	.uleb128 0x57
	.uleb128 0x21
	.sleb128 5
	.byte	0
	.byte	0
	.uleb128 0x7
	.uleb128 0x2e
	.byte	0
	.uleb128 0x31
	.uleb128 0x13
	.uleb128 0x11
	.uleb128 0x1
	.uleb128 0x12
	.uleb128 0x6
	.uleb128 0x40
	.uleb128 0x18
	.uleb128 0x7a
	.uleb128 0x19
	.byte	0
	.byte	0
	.uleb128 0x8
	.uleb128 0x11
	.byte	0x1
	.uleb128 0x25
	.uleb128 0xe
	.uleb128 0x13
	.uleb128 0xb
	.uleb128 0x3
	.uleb128 0x1f
	.uleb128 0x1b
	.uleb128 0x1f
	.uleb128 0x11
	.uleb128 0x1
	.uleb128 0x12
	.uleb128 0x6
	.uleb128 0x10
	.uleb128 0x17
	.byte	0
	.byte	0
	.uleb128 0x9
	.uleb128 0x1d
	.byte	0x1
	.uleb128 0x31
	.uleb128 0x13
	.uleb128 0x11
	.uleb128 0x1
	.uleb128 0x12
	.uleb128 0x6
	.uleb128 0x58
	.uleb128 0xb
	.uleb128 0x59
	.uleb128 0xb
	.uleb128 0x57
	.uleb128 0xb
	.byte	0
	.byte	0
	.uleb128 0xa
	.uleb128 0x2e
	.byte	0
	.uleb128 0x3
	.uleb128 0x8
	.uleb128 0x3a
	.uleb128 0xb
	.uleb128 0x3b
	.uleb128 0xb
	.uleb128 0x39
	.uleb128 0xb
	.uleb128 0x20
	.uleb128 0xb
	.byte	0
	.byte	0
	.uleb128 0xb
	.uleb128 0x2e
	.byte	0x1
	.uleb128 0x31
	.uleb128 0x13
	.uleb128 0x11
	.uleb128 0x1
	.uleb128 0x12
	.uleb128 0x6
	.uleb128 0x40
	.uleb128 0x18
	.uleb128 0x7a
	.uleb128 0x19
	.uleb128 0x1
	.uleb128 0x13
	.byte	0
	.byte	0
	.byte	0
	.section	.debug_aranges,"",@progbits
	.uaword	0x1c
	.uahalf	0x2
	.uaword	.Ldebug_info0
	.byte	0x4
	.byte	0
	.uahalf	0
	.uahalf	0
	.uaword	.Ltext0
	.uaword	.Letext0-.Ltext0
	.uaword	0
	.uaword	0
	.section	.debug_rnglists,"",@progbits
.Ldebug_ranges0:
	.uaword	.Ldebug_ranges3-.Ldebug_ranges2
.Ldebug_ranges2:
	.uahalf	0x5
	.byte	0x4
	.byte	0
	.uaword	0
.LLRL0:
	.byte	0x4
	.uleb128 .LBB124-.Ltext0
	.uleb128 .LBE124-.Ltext0
	.byte	0x4
	.uleb128 .LBB132-.Ltext0
	.uleb128 .LBE132-.Ltext0
	.byte	0
.LLRL1:
	.byte	0x4
	.uleb128 .LBB146-.Ltext0
	.uleb128 .LBE146-.Ltext0
	.byte	0x4
	.uleb128 .LBB154-.Ltext0
	.uleb128 .LBE154-.Ltext0
	.byte	0
.Ldebug_ranges3:
	.section	.debug_line,"",@progbits
.Ldebug_line0:
	.section	.debug_str,"MS",@progbits,1
.LASF24:
	.asciz	"memmove"
.LASF17:
	.asciz	"__ashrdi3"
.LASF4:
	.asciz	"__popcountsi2"
.LASF2:
	.asciz	"__paritysi2"
.LASF10:
	.asciz	"__moddi3"
.LASF5:
	.asciz	"__ctzsi2"
.LASF9:
	.asciz	"__cmpdi2"
.LASF6:
	.asciz	"__clzsi2"
.LASF21:
	.asciz	"high"
.LASF7:
	.asciz	"__bswapsi2"
.LASF15:
	.asciz	"divided"
.LASF3:
	.asciz	"__ffssi2"
.LASF20:
	.asciz	"joined"
.LASF18:
	.asciz	"__lshrdi3"
.LASF13:
	.asciz	"__udivdi3"
.LASF12:
	.asciz	"__umoddi3"
.LASF25:
	.asciz	"memcpy"
.LASF19:
	.asciz	"__ashldi3"
.LASF26:
	.ascii	"GNU C17 12.2.0 -mptr32 -mno-stack-bias -m32 -mcpu=v8 -mno-ap"
	.ascii	"p-regs -g1 -O2 -ffreestanding -ffixed-o7 -fno-delayed-branch"
	.ascii	" -fno-pie -fno-jump-tables -fno-optimize-sibling-calls -fno-"
	.ascii	"asynchronous-unwind-tables -fno-stack-protector -fno-common "
	.ascii	"-fno-tree-loop-distribute-patterns -fno-ivopts -fno-schedule"
	.ascii	"-insns -fno-schedule-insns2 -fno-tree-vectorize -fno-tree-lo"
	.ascii	"op-ivcanon -fno-split-loops -fno-thread-jumps -fno-crossjump"
	.ascii	"ing -fno-tree-tail-merge -finline-functions -"
	.asciz	"-param=logical-op-non-short-circuit=0 --param=max-inline-insns-auto=100000 --param=max-inline-insns-single=100000 --param=large-function-growth=10000 --param=inline-unit-growth=10000 --param=early-inlining-insns=10000 --param=large-stack-frame-growth=10000"
.LASF8:
	.asciz	"__ucmpdi2"
.LASF22:
	.asciz	"memcmp"
.LASF14:
	.asciz	"magnitude"
.LASF23:
	.asciz	"memset"
.LASF11:
	.asciz	"__divdi3"
.LASF16:
	.asciz	"__muldi3"
	.section	.debug_line_str,"MS",@progbits,1
.LASF0:
	.asciz	"runtime/plug.c"
.LASF1:
	.asciz	"."
	.ident	"GCC: (Debian 12.2.0-13) 12.2.0"
	.section	.note.GNU-stack,"",@progbits
