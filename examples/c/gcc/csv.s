	.file	"csv.c"
	.section	".text"
.Ltext0:
	.cfi_sections	.debug_frame
	.file 0 "." "csv.c"
	.section	.text.startup,"ax",@progbits
	.align 4
	.global main
	.type	main, #function
	.proc	04
main:
.LFB15:
	.file 1 "csv.c"
	.loc 1 13 16
	.cfi_startproc
	save	%sp, -96, %sp
	.cfi_window_save
	.cfi_register 15, 31
	.cfi_def_cfa_register 30
.LBB39:
.LBB40:
	.file 2 "runtime/plug.h"
	.loc 2 24 5
#APP
! 24 "runtime/plug.h" 1
	ta 1
! 0 "" 2
#NO_APP
.LBE40:
.LBE39:
	.loc 1 15 24
	cmp	%o0, 0
	bl	.L15
	 nop
	.loc 1 14 21
	mov	0, %i4
	.loc 1 14 9
	mov	0, %g1
.LBB42:
.LBB43:
	.loc 1 7 13
	sethi	%hi(used), %i3
	or	%i3, %lo(used), %i3
	.loc 1 7 56
	sethi	%hi(cell), %i2
	or	%i2, %lo(cell), %i2
.L14:
.LBE43:
.LBE42:
	.loc 1 17 12
	cmp	%o0, 34
	be	.L34
	 nop
	.loc 1 18 12
	cmp	%i4, 0
	bne	.L6
	 nop
	.loc 1 18 21 discriminator 1
	cmp	%o0, 44
	be	.L35
	 nop
	.loc 1 19 21 discriminator 1
	cmp	%o0, 10
	be	.L36
	 nop
.L6:
	.loc 1 25 12
	cmp	%g1, 1
	be	.L37
	 nop
	.loc 1 26 12
	cmp	%g1, 3
	be	.L38
	 nop
.L21:
	.loc 1 16 13
	mov	1, %i5
.L4:
.LBB45:
.LBB41:
	.loc 2 24 5
#APP
! 24 "runtime/plug.h" 1
	ta 1
! 0 "" 2
#NO_APP
.LBE41:
.LBE45:
	.loc 1 15 24
	cmp	%o0, 0
	bge	.L14
	 nop
	.loc 1 28 8
	cmp	%i5, 0
	be	.L15
	 nop
.LBB46:
.LBB47:
.LBB48:
	.loc 1 10 29
	sethi	%hi(used), %i1
	ld	[%i1+%lo(used)], %i4
	.loc 1 10 23
	cmp	%i4, 0
	ble	.L16
	 nop
	.loc 1 10 14
	mov	0, %g1
	sethi	%hi(cell), %i5
	or	%i5, %lo(cell), %i5
.L17:
	.loc 1 10 43
	ldsb	[%i5+%g1], %o0
.LBB49:
.LBB50:
	.loc 2 31 5
#APP
! 31 "runtime/plug.h" 1
	ta 2
! 0 "" 2
#NO_APP
.LBE50:
.LBE49:
	.loc 1 10 39
	add	%g1, 1, %g1
	.loc 1 10 23
	cmp	%g1, %i4
	bl	.L17
	 nop
.L16:
.LBE48:
	.loc 1 11 17
	or	%i1, %lo(used), %o5
	st	%g0, [%i1+%lo(used)]
.LBE47:
.LBE46:
.LBB51:
.LBB52:
	.loc 2 30 18
	mov	9, %o0
	.loc 2 31 5
#APP
! 31 "runtime/plug.h" 1
	ta 2
! 0 "" 2
#NO_APP
.LBE52:
.LBE51:
.LBB53:
.LBB54:
.LBB55:
	.loc 1 10 29
	ld	[%o5+4], %i3
	.loc 1 10 23
	cmp	%i3, 0
	ble	.L18
	 nop
	.loc 1 10 14
	mov	0, %g1
	sethi	%hi(cell), %i5
	or	%i5, %lo(cell), %i5
.L19:
	.loc 1 10 58
	add	%i5, %g1, %i4
	.loc 1 10 43
	ldsb	[%i4+80], %o0
.LBB56:
.LBB57:
	.loc 2 31 5
#APP
! 31 "runtime/plug.h" 1
	ta 2
! 0 "" 2
#NO_APP
.LBE57:
.LBE56:
	.loc 1 10 39
	add	%g1, 1, %g1
	.loc 1 10 23
	cmp	%i3, %g1
	bg	.L19
	 nop
.L18:
.LBE55:
	.loc 1 11 17
	st	%g0, [%o5+4]
.LBE54:
.LBE53:
.LBB58:
.LBB59:
	.loc 2 30 18
	mov	10, %o0
	.loc 2 31 5
#APP
! 31 "runtime/plug.h" 1
	ta 2
! 0 "" 2
#NO_APP
.L15:
.LBE59:
.LBE58:
	.loc 1 30 1
	mov	0, %i0
	restore
	jmp	%o7+8
	 nop
.L38:
.LBB60:
.LBB44:
	.loc 1 7 13
	ld	[%i3+4], %i5
	.loc 1 7 8
	cmp	%i5, 79
	bg	.L13
	 nop
	.loc 1 7 52
	add	%i5, 1, %i1
	st	%i1, [%i3+4]
	.loc 1 7 56
	add	%i2, %i5, %i5
	stb	%o0, [%i5+80]
.L13:
.LBE44:
.LBE60:
	.loc 1 16 13
	mov	1, %i5
	b,a	.L4
.L37:
.LBB61:
.LBB62:
	.loc 1 7 13
	ld	[%i3], %i5
	.loc 1 7 8
	cmp	%i5, 79
	bg	.L21
	 nop
	.loc 1 7 52
	add	%i5, 1, %i1
	st	%i1, [%i3]
	.loc 1 7 56
	stb	%o0, [%i2+%i5]
	b,a	.L21
.L34:
	xor	%i4, 1, %i4
.LBE62:
.LBE61:
	.loc 1 16 13 discriminator 1
	mov	1, %i5
	.loc 1 17 43 discriminator 1
	b,a	.L4
.L35:
	.loc 1 18 42 discriminator 2
	add	%g1, 1, %g1
	.loc 1 16 13 discriminator 2
	mov	1, %i5
	.loc 1 18 46 discriminator 2
	b,a	.L4
.L36:
.LBB63:
.LBB64:
.LBB65:
	.loc 1 10 29
	sethi	%hi(used), %i1
	or	%i1, %lo(used), %o5
	ld	[%i1+%lo(used)], %i1
	.loc 1 10 23
	cmp	%i1, 0
	ble	.L7
	 nop
	.loc 1 10 14
	mov	0, %g1
	sethi	%hi(cell), %i5
	or	%i5, %lo(cell), %i5
.L8:
	.loc 1 10 43
	ldsb	[%i5+%g1], %o0
.LBB66:
.LBB67:
	.loc 2 31 5
#APP
! 31 "runtime/plug.h" 1
	ta 2
! 0 "" 2
#NO_APP
.LBE67:
.LBE66:
	.loc 1 10 39
	add	%g1, 1, %g1
	.loc 1 10 23
	cmp	%g1, %i1
	bl	.L8
	 nop
.L7:
.LBE65:
	.loc 1 11 17
	st	%g0, [%o5]
.LBE64:
.LBE63:
.LBB68:
.LBB69:
	.loc 2 30 18
	mov	9, %o0
	.loc 2 31 5
#APP
! 31 "runtime/plug.h" 1
	ta 2
! 0 "" 2
#NO_APP
.LBE69:
.LBE68:
.LBB70:
.LBB71:
.LBB72:
	.loc 1 10 29
	ld	[%o5+4], %i0
	.loc 1 10 23
	cmp	%i0, 0
	ble	.L9
	 nop
	.loc 1 10 14
	mov	0, %g1
	sethi	%hi(cell), %i5
	or	%i5, %lo(cell), %i5
.L10:
	.loc 1 10 58
	add	%i5, %g1, %i1
	.loc 1 10 43
	ldsb	[%i1+80], %o0
.LBB73:
.LBB74:
	.loc 2 31 5
#APP
! 31 "runtime/plug.h" 1
	ta 2
! 0 "" 2
#NO_APP
.LBE74:
.LBE73:
	.loc 1 10 39
	add	%g1, 1, %g1
	.loc 1 10 23
	cmp	%g1, %i0
	bl	.L10
	 nop
.L9:
.LBE72:
	.loc 1 11 17
	st	%g0, [%o5+4]
.LBE71:
.LBE70:
.LBB75:
.LBB76:
	.loc 2 30 18
	mov	10, %o0
	.loc 2 31 5
#APP
! 31 "runtime/plug.h" 1
	ta 2
! 0 "" 2
#NO_APP
.LBE76:
.LBE75:
	.loc 1 22 17
	mov	0, %i5
	.loc 1 21 20
	mov	0, %g1
	.loc 1 23 13
	b,a	.L4
	.cfi_endproc
.LFE15:
	.size	main, .-main
	.local	used
	.common	used,8,4
	.local	cell
	.common	cell,160,1
	.section	".text"
.Letext0:
