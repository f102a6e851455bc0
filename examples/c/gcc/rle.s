	.file	"rle.c"
	.section	".text"
.Ltext0:
	.cfi_sections	.debug_frame
	.file 0 "." "rle.c"
	.section	.text.startup,"ax",@progbits
	.align 4
	.global main
	.type	main, #function
	.proc	04
main:
.LFB15:
	.file 1 "rle.c"
	.loc 1 24 16
	.cfi_startproc
	save	%sp, -96, %sp
	.cfi_window_save
	.cfi_register 15, 31
	.cfi_def_cfa_register 30
.LBB57:
.LBB58:
	.file 2 "runtime/plug.h"
	.loc 2 24 5
#APP
! 24 "runtime/plug.h" 1
	ta 1
! 0 "" 2
#NO_APP
.LBE58:
.LBE57:
	.loc 1 26 8
	orcc	%o0, 0, %i3
	bl	.L2
	 nop
	.loc 1 25 23
	mov	1, %i2
	sethi	%hi(held), %o5
	or	%o5, %lo(held), %i0
	sethi	%hi(literal), %i1
	or	%i1, %lo(literal), %i1
.LBB59:
.LBB60:
.LBB61:
	.loc 2 24 5
#APP
! 24 "runtime/plug.h" 1
	ta 1
! 0 "" 2
	.loc 2 25 12
#NO_APP
	mov	%o0, %i4
.LBE61:
.LBE60:
	.loc 1 29 12
	cmp	%i3, %o0
	be	.L32
	 nop
.L4:
.LBB63:
.LBB64:
.LBB65:
.LBB66:
	.loc 1 7 14
	ld	[%i0], %g1
.LBE66:
.LBE65:
	.loc 1 13 8
	cmp	%i2, 2
	bg	.L33
	 nop
	.loc 1 20 12
	cmp	%g1, 127
	be	.L12
	 nop
.L34:
	.loc 1 21 21
	mov	%g1, %i5
	add	%g1, 1, %g1
	st	%g1, [%i0]
	.loc 1 21 25
	stb	%i3, [%i1+%i5]
	.loc 1 19 14
	cmp	%i2, 1
	be	.L11
	 nop
.L17:
	.loc 1 19 20
	mov	1, %i2
	.loc 1 20 12
	cmp	%g1, 127
	bne	.L34
	 nop
.L12:
.LBB73:
.LBB74:
.LBB75:
	.loc 2 30 18
	mov	255, %o0
	.loc 2 31 5
#APP
! 31 "runtime/plug.h" 1
	ta 2
! 0 "" 2
#NO_APP
.LBE75:
.LBE74:
.LBB76:
	.loc 1 9 14
	mov	0, %g1
.L14:
	.loc 1 9 36
	ldub	[%i1+%g1], %o0
.LBB77:
.LBB78:
	.loc 2 31 5
#APP
! 31 "runtime/plug.h" 1
	ta 2
! 0 "" 2
#NO_APP
.LBE78:
.LBE77:
	.loc 1 9 32
	add	%g1, 1, %g1
	.loc 1 9 23
	cmp	%g1, 127
	bne	.L14
	 nop
	mov	1, %g1
	mov	0, %i5
.LBE76:
.LBE73:
	.loc 1 21 21
	st	%g1, [%i0]
	.loc 1 21 25
	stb	%i3, [%i1+%i5]
	.loc 1 19 14
	cmp	%i2, 1
	bne	.L17
	 nop
.L11:
.LBE64:
.LBE63:
	.loc 1 31 12
	cmp	%i4, 0
	bl	.L35
	 nop
.L18:
	.loc 1 33 11
	mov	1, %i2
	mov	%i4, %i3
.L36:
.LBB85:
.LBB62:
	.loc 2 24 5
#APP
! 24 "runtime/plug.h" 1
	ta 1
! 0 "" 2
	.loc 2 25 12
#NO_APP
	mov	%o0, %i4
.LBE62:
.LBE85:
	.loc 1 29 12
	cmp	%i3, %o0
	bne	.L4
	 nop
.L32:
	.loc 1 29 23 discriminator 1
	cmp	%i2, 127
	be	.L4
	 nop
	.loc 1 29 39 discriminator 2
	add	%i2, 1, %i2
	.loc 1 33 11 discriminator 2
	mov	%i4, %i3
	b,a	.L36
.L33:
.LBB86:
.LBB84:
.LBB79:
.LBB72:
	.loc 1 7 8
	cmp	%g1, 0
	be	.L8
	 nop
	.loc 1 8 5
	or	%g1, 128, %o0
.LBB67:
.LBB68:
	.loc 2 31 5
#APP
! 31 "runtime/plug.h" 1
	ta 2
! 0 "" 2
#NO_APP
.LBE68:
.LBE67:
.LBB69:
	.loc 1 9 23
	ble	.L9
	 nop
	.loc 1 9 14
	mov	0, %i5
.L10:
	.loc 1 9 36
	ldub	[%i1+%i5], %o0
.LBB70:
.LBB71:
	.loc 2 31 5
#APP
! 31 "runtime/plug.h" 1
	ta 2
! 0 "" 2
#NO_APP
.LBE71:
.LBE70:
	.loc 1 9 32
	add	%i5, 1, %i5
	.loc 1 9 23
	cmp	%g1, %i5
	bg	.L10
	 nop
.L9:
.LBE69:
	.loc 1 10 10
	st	%g0, [%i0]
.L8:
.LBE72:
.LBE79:
.LBB80:
.LBB81:
	.loc 2 30 18
	mov	%i2, %o0
	.loc 2 31 5
#APP
! 31 "runtime/plug.h" 1
	ta 2
! 0 "" 2
#NO_APP
.LBE81:
.LBE80:
.LBB82:
.LBB83:
	.loc 2 30 18
	mov	%i3, %o0
	.loc 2 31 5
#APP
! 31 "runtime/plug.h" 1
	ta 2
! 0 "" 2
#NO_APP
.LBE83:
.LBE82:
.LBE84:
.LBE86:
	.loc 1 31 12
	cmp	%i4, 0
	bge	.L18
	 nop
.L35:
.LBE59:
.LBB87:
.LBB88:
	.loc 1 7 14
	ld	[%o5+%lo(held)], %i5
	.loc 1 7 8
	cmp	%i5, 0
	be	.L2
	 nop
	.loc 1 8 5
	or	%i5, 128, %o0
.LBB89:
.LBB90:
	.loc 2 31 5
#APP
! 31 "runtime/plug.h" 1
	ta 2
! 0 "" 2
#NO_APP
.LBE90:
.LBE89:
.LBB91:
	.loc 1 9 23
	ble	.L15
	 nop
	.loc 1 9 14
	mov	0, %g1
	sethi	%hi(literal), %i4
	or	%i4, %lo(literal), %i4
.L16:
	.loc 1 9 36
	ldub	[%i4+%g1], %o0
.LBB92:
.LBB93:
	.loc 2 31 5
#APP
! 31 "runtime/plug.h" 1
	ta 2
! 0 "" 2
#NO_APP
.LBE93:
.LBE92:
	.loc 1 9 32
	add	%g1, 1, %g1
	.loc 1 9 23
	cmp	%i5, %g1
	bg	.L16
	 nop
.L15:
.LBE91:
	.loc 1 10 10
	st	%g0, [%o5+%lo(held)]
.L2:
.LBE88:
.LBE87:
	.loc 1 37 1
	mov	0, %i0
	restore
	jmp	%o7+8
	 nop
	.cfi_endproc
.LFE15:
	.size	main, .-main
	.local	held
	.common	held,4,4
	.local	literal
	.common	literal,127,8
	.section	".text"
.Letext0:
