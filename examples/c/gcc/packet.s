	.file	"packet.c"
	.section	".text"
.Ltext0:
	.cfi_sections	.debug_frame
	.file 0 "." "packet.c"
	.section	.rodata.str1.8,"aMS",@progbits,1
	.align 8
.LC0:
	.asciz	"drop"
	.align 8
.LC1:
	.asciz	"pass"
	.section	.text.startup,"ax",@progbits
	.align 4
	.global main
	.type	main, #function
	.proc	04
main:
.LFB18:
	.file 1 "packet.c"
	.loc 1 41 16
	.cfi_startproc
	save	%sp, -96, %sp
	.cfi_window_save
	.cfi_register 15, 31
	.cfi_def_cfa_register 30
.LBB67:
	.loc 1 42 14
	mov	0, %i3
.LBB68:
.LBB69:
.LBB70:
	.loc 1 50 20
	sethi	%hi(buf), %i4
	or	%i4, %lo(buf), %i4
.L17:
.LBE70:
.LBE69:
.LBB75:
.LBB76:
	.file 2 "runtime/plug.h"
	.loc 2 24 5
#APP
! 24 "runtime/plug.h" 1
	ta 1
! 0 "" 2
	.loc 2 25 12
#NO_APP
	mov	%o0, %i5
.LBE76:
.LBE75:
.LBB77:
.LBB78:
	.loc 2 24 5
#APP
! 24 "runtime/plug.h" 1
	ta 1
! 0 "" 2
#NO_APP
.LBE78:
.LBE77:
	.loc 1 44 12
	cmp	%o0, 0
	bl	.L2
	 nop
	.loc 1 45 36
	sll	%i5, 8, %i5
	.loc 1 45 18
	or	%i5, %o0, %i5
	.loc 1 46 12
	cmp	%i5, 1514
	bgu	.L3
	 nop
.LBB79:
	.loc 1 47 32
	cmp	%i5, 0
	be	.L25
	 nop
	.loc 1 47 23
	mov	0, %g1
	b,a	.L7
.L5:
.LBB73:
	.loc 1 50 20 discriminator 2
	stb	%o0, [%i4+%g1]
.LBE73:
	.loc 1 47 40 discriminator 2
	add	%g1, 1, %g1
	.loc 1 47 32 discriminator 2
	cmp	%i5, %g1
	bleu	.L44
	 nop
.L7:
.LBB74:
.LBB71:
.LBB72:
	.loc 2 24 5
#APP
! 24 "runtime/plug.h" 1
	ta 1
! 0 "" 2
#NO_APP
.LBE72:
.LBE71:
	.loc 1 49 16
	cmp	%o0, 0
	bge	.L5
	 nop
.L3:
.LBE74:
.LBE79:
	.loc 1 46 38
	mov	1, %i0
	restore
	jmp	%o7+8
	 nop
.L44:
.LBB80:
.LBB81:
.LBB82:
.LBB83:
	.loc 1 18 8
	cmp	%i5, 19
	bleu	.L25
	 nop
	.loc 1 18 24
	ldub	[%i4], %i2
	.loc 1 18 33
	and	%i2, 0xff, %g1
	.loc 1 18 18
	srl	%g1, 4, %g1
	cmp	%g1, 4
	be	.L45
	 nop
.L25:
.LBE83:
.LBE82:
.LBE81:
.LBE80:
	.loc 1 52 9
	sethi	%hi(.LC0), %g1
	or	%g1, %lo(.LC0), %g1
.L14:
.LBB98:
.LBB99:
	.loc 1 39 41
	ldub	[%g1], %o0
	sll	%o0, 24, %o0
	cmp	%o0, 0
	be	.L15
	 nop
.L16:
	.loc 1 39 51
	add	%g1, 1, %g1
	.loc 1 39 45
	sra	%o0, 24, %o0
.LBB100:
.LBB101:
	.loc 2 31 5
#APP
! 31 "runtime/plug.h" 1
	ta 2
! 0 "" 2
#NO_APP
.LBE101:
.LBE100:
	.loc 1 39 41
	ldub	[%g1], %o0
	sll	%o0, 24, %o0
	cmp	%o0, 0
	bne	.L16
	 nop
.L15:
.LBB102:
.LBB103:
	.loc 2 30 18
	mov	10, %o0
	.loc 2 31 5
#APP
! 31 "runtime/plug.h" 1
	ta 2
! 0 "" 2
#NO_APP
.LBE103:
.LBE102:
.LBE99:
.LBE98:
.LBE68:
	.loc 1 42 33
	add	%i3, 1, %i3
	.loc 1 42 23
	sethi	%hi(9216), %g1
	or	%g1, 784, %g1
	cmp	%i3, %g1
	bne	.L17
	 nop
.L2:
.LBE67:
	.loc 1 54 12
	mov	0, %i0
	.loc 1 55 1
	restore
	jmp	%o7+8
	 nop
.L45:
.LBB106:
.LBB105:
.LBB104:
.LBB97:
.LBB90:
.LBB89:
	.loc 1 19 28
	and	%i2, 15, %i2
	.loc 1 19 34
	sll	%i2, 2, %i2
	.loc 1 20 8
	cmp	%i2, 19
	ble	.L25
	 nop
	.loc 1 20 18
	cmp	%i5, %i2
	blu	.L25
	 nop
.LBB84:
.LBB85:
	.loc 1 14 57
	lduh	[%i4+2], %g1
.LBE85:
.LBE84:
	.loc 1 20 31
	cmp	%i5, %g1
	blu	.L25
	 nop
	.loc 1 21 14
	mov	0, %i0
.LBB86:
	.loc 1 22 19
	mov	0, %i1
.L9:
.LBB87:
.LBB88:
	.loc 1 14 47
	ldub	[%i4+%i1], %g1
	.loc 1 14 52
	sll	%g1, 8, %g1
	.loc 1 14 62
	add	%i4, %i1, %o5
	ldub	[%o5+1], %o5
	.loc 1 14 57
	or	%g1, %o5, %g1
.LBE88:
.LBE87:
	.loc 1 22 47
	add	%i0, %g1, %i0
	.loc 1 22 37
	add	%i1, 2, %i1
	.loc 1 22 28
	cmp	%i2, %i1
	bgu	.L9
	 nop
.LBE86:
	.loc 1 23 16
	sethi	%hi(64512), %i2
	or	%i2, 1023, %i2
	and	%i0, %i2, %g1
	.loc 1 23 33
	srl	%i0, 16, %i0
	.loc 1 23 9
	add	%g1, %i0, %g1
	.loc 1 24 16
	and	%g1, %i2, %i1
	.loc 1 24 33
	srl	%g1, 16, %g1
	.loc 1 24 9
	add	%i1, %g1, %g1
.LBE89:
.LBE90:
	.loc 1 28 8
	cmp	%g1, %i2
	bne	.L25
	 nop
	.loc 1 29 39
	ldub	[%i4+9], %o5
	.loc 1 30 8
	cmp	%o5, 6
	be	.L11
	 nop
	.loc 1 30 20
	cmp	%o5, 17
	bne	.L25
	 nop
.L11:
	.loc 1 29 28
	ldub	[%i4], %g1
	and	%g1, 15, %g1
	.loc 1 29 34
	sll	%g1, 2, %g1
	.loc 1 31 13
	add	%g1, 4, %i2
	.loc 1 31 8
	cmp	%i5, %i2
	blu	.L25
	 nop
.LBB91:
.LBB92:
	.loc 1 15 59
	ld	[%i4+12], %o4
.LBE92:
.LBE91:
.LBB93:
.LBB94:
	.loc 1 14 47
	add	%i4, %g1, %g1
	ldub	[%g1+2], %i5
	.loc 1 14 52
	sll	%i5, 8, %i5
	.loc 1 14 62
	ldub	[%g1+3], %g1
	.loc 1 14 57
	or	%i5, %g1, %o3
.LBE94:
.LBE93:
.LBB95:
	.loc 1 33 19
	mov	0, %g1
	sethi	%hi(rules), %i1
	or	%i1, %lo(rules), %i1
	b,a	.L13
.L12:
	.loc 1 33 38
	add	%g1, 1, %g1
	.loc 1 33 28
	cmp	%g1, 5
	be	.L25
	 nop
.L13:
.LBB96:
	.loc 1 35 21
	sll	%g1, 4, %i2
	add	%i1, %i2, %i0
	.loc 1 35 18
	ld	[%i0+4], %i5
	and	%o4, %i5, %i5
	.loc 1 35 12
	ld	[%i1+%i2], %i2
	cmp	%i5, %i2
	bne	.L12
	 nop
	.loc 1 35 39
	ldub	[%i0+12], %i5
	cmp	%o5, %i5
	bne	.L12
	 nop
	.loc 1 35 72
	lduh	[%i0+8], %i5
	.loc 1 35 60
	cmp	%o3, %i5
	blu	.L12
	 nop
	.loc 1 35 89
	lduh	[%i0+10], %i5
	.loc 1 35 77
	cmp	%o3, %i5
	bgu	.L12
	 nop
	.loc 1 35 103
	ldub	[%i0+13], %g1
.LBE96:
.LBE95:
.LBE97:
.LBE104:
	.loc 1 52 9
	cmp	%g1, 0
	be	.L25
	 nop
	sethi	%hi(.LC1), %g1
	or	%g1, %lo(.LC1), %g1
	b,a	.L14
.LBE105:
.LBE106:
	.cfi_endproc
.LFE18:
	.size	main, .-main
	.local	buf
	.common	buf,1514,8
	.section	".rodata"
	.align 4
	.type	rules, #object
	.size	rules, 80
rules:
	.long	167772160
	.long	-16777216
	.half	22
	.half	22
	.byte	6
	.byte	1
	.skip	2
	.long	167772160
	.long	-16777216
	.half	0
	.half	-1
	.byte	6
	.byte	0
	.skip	2
	.long	-1062731520
	.long	-256
	.half	53
	.half	53
	.byte	17
	.byte	1
	.skip	2
	.long	0
	.long	0
	.half	80
	.half	80
	.byte	6
	.byte	1
	.skip	2
	.long	0
	.long	0
	.half	443
	.half	443
	.byte	6
	.byte	1
	.skip	2
	.section	".text"
.Letext0:
