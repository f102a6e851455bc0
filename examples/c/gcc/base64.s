	.file	"base64.c"
	.section	".text"
.Ltext0:
	.cfi_sections	.debug_frame
	.file 0 "." "base64.c"
	.section	.text.startup,"ax",@progbits
	.align 4
	.global main
	.type	main, #function
	.proc	04
main:
.LFB13:
	.file 1 "base64.c"
	.loc 1 3 16
	.cfi_startproc
	save	%sp, -96, %sp
	.cfi_window_save
	.cfi_register 15, 31
	.cfi_def_cfa_register 30
.LBB22:
	.loc 1 5 14
	mov	0, %i1
.LBE22:
	.loc 1 4 14
	mov	0, %i3
.LBB41:
.LBB23:
	.loc 1 10 20
	sethi	%hi(letters), %i2
	or	%i2, %lo(letters), %i2
.LBE23:
	.loc 1 5 31
	sethi	%hi(399360), %o5
	or	%o5, 640, %o5
.L9:
.LBB40:
.LBB24:
.LBB25:
	.file 2 "runtime/plug.h"
	.loc 2 24 5
#APP
! 24 "runtime/plug.h" 1
	ta 1
! 0 "" 2
#NO_APP
.LBE25:
.LBE24:
	.loc 1 7 12
	orcc	%o0, 0, %g1
	bl	.L2
	 nop
.LBB26:
.LBB27:
	.loc 2 24 5
#APP
! 24 "runtime/plug.h" 1
	ta 1
! 0 "" 2
	.loc 2 25 12
#NO_APP
	mov	%o0, %i5
.LBE27:
.LBE26:
	.loc 1 9 24
	mov	-1, %i4
	cmp	%o0, 0
	bl	.L3
	 nop
.LBB28:
.LBB29:
	.loc 2 24 5
#APP
! 24 "runtime/plug.h" 1
	ta 1
! 0 "" 2
	.loc 2 25 12
#NO_APP
	mov	%o0, %i4
.L3:
.LBE29:
.LBE28:
	.loc 1 10 23 discriminator 4
	sra	%g1, 2, %i0
	.loc 1 10 9 discriminator 4
	ldsb	[%i2+%i0], %o0
.LBB30:
.LBB31:
	.loc 2 31 5 discriminator 4
#APP
! 31 "runtime/plug.h" 1
	ta 2
! 0 "" 2
#NO_APP
.LBE31:
.LBE30:
	.loc 1 11 29 discriminator 4
	sll	%g1, 4, %g1
	and	%g1, 48, %g1
	.loc 1 11 47 discriminator 4
	cmp	%i5, 0
	bl	.L4
	 nop
	.loc 1 11 47 is_stmt 0 discriminator 1
	sra	%i5, 4, %i0
	.loc 1 11 34 is_stmt 1 discriminator 1
	or	%g1, %i0, %g1
.L4:
	.loc 1 11 9 discriminator 4
	ldsb	[%i2+%g1], %o0
.LBB32:
.LBB33:
	.loc 2 31 5 discriminator 4
#APP
! 31 "runtime/plug.h" 1
	ta 2
! 0 "" 2
#NO_APP
.LBE33:
.LBE32:
	.loc 1 12 9 discriminator 4
	mov	61, %o0
	cmp	%i5, 0
	bl	.L5
	 nop
	.loc 1 12 44 discriminator 1
	sll	%i5, 2, %i5
	and	%i5, 60, %i5
	.loc 1 12 62 discriminator 1
	cmp	%i4, 0
	bl	.L6
	 nop
	.loc 1 12 62 is_stmt 0 discriminator 3
	sra	%i4, 6, %g1
	.loc 1 12 49 is_stmt 1 discriminator 3
	or	%i5, %g1, %i5
.L6:
	.loc 1 12 9 discriminator 6
	ldsb	[%i2+%i5], %o0
.L5:
.LBB34:
.LBB35:
	.loc 2 31 5 discriminator 8
#APP
! 31 "runtime/plug.h" 1
	ta 2
! 0 "" 2
#NO_APP
.LBE35:
.LBE34:
	.loc 1 13 9 discriminator 8
	mov	61, %o0
	cmp	%i4, 0
	bl	.L7
	 nop
	.loc 1 13 37 discriminator 1
	and	%i4, 63, %g1
	.loc 1 13 9 discriminator 1
	ldsb	[%i2+%g1], %o0
.L7:
.LBB36:
.LBB37:
	.loc 2 31 5 discriminator 4
#APP
! 31 "runtime/plug.h" 1
	ta 2
! 0 "" 2
#NO_APP
.LBE37:
.LBE36:
	.loc 1 14 13 discriminator 4
	add	%i3, 4, %i3
	.loc 1 15 12 discriminator 4
	cmp	%i3, 76
	bne	.L8
	 nop
.LBB38:
.LBB39:
	.loc 2 30 18
	mov	10, %o0
	.loc 2 31 5
#APP
! 31 "runtime/plug.h" 1
	ta 2
! 0 "" 2
#NO_APP
.LBE39:
.LBE38:
	.loc 1 15 41
	mov	0, %i3
.L8:
	.loc 1 16 12
	cmp	%i4, 0
	bl	.L2
	 nop
.LBE40:
	.loc 1 5 46 discriminator 2
	add	%i1, 1, %i1
	.loc 1 5 31 discriminator 2
	cmp	%i1, %o5
	bne	.L9
	 nop
.L2:
.LBE41:
	.loc 1 18 8
	cmp	%i3, 0
	be	.L10
	 nop
.LBB42:
.LBB43:
	.loc 2 30 18
	mov	10, %o0
	.loc 2 31 5
#APP
! 31 "runtime/plug.h" 1
	ta 2
! 0 "" 2
#NO_APP
.L10:
.LBE43:
.LBE42:
	.loc 1 20 1
	mov	0, %i0
	restore
	jmp	%o7+8
	 nop
	.cfi_endproc
.LFE13:
	.size	main, .-main
	.section	".rodata"
	.align 8
	.type	letters, #object
	.size	letters, 65
letters:
	.asciz	"ABCDEFGHIJKLMNOPQRSTUVWXYZabcdefghijklmnopqrstuvwxyz0123456789+/"
	.section	".text"
.Letext0:
