	.file	"sieve.c"
	.section	".text"
.Ltext0:
	.cfi_sections	.debug_frame
	.file 0 "." "sieve.c"
	.section	.text.startup,"ax",@progbits
	.align 4
	.global main
	.type	main, #function
	.proc	04
main:
.LFB14:
	.file 1 "sieve.c"
	.loc 1 11 16
	.cfi_startproc
	save	%sp, -96, %sp
	.cfi_window_save
	.cfi_register 15, 31
	.cfi_def_cfa_register 30
.LBB29:
	.loc 1 12 14
	mov	2, %i5
	.loc 1 12 23
	mov	4, %g1
	sethi	%hi(composite), %i4
	or	%i4, %lo(composite), %i4
.LBB30:
	.loc 1 14 62
	mov	1, %i3
	b,a	.L4
.L2:
.LBE30:
	.loc 1 12 34 discriminator 2
	add	%i5, 1, %i5
	.loc 1 12 23 discriminator 2
	smul	%i5, %i5, %g1
	.loc 1 12 27 discriminator 2
	cmp	%g1, 2000
	bg	.L17
	 nop
.L4:
	.loc 1 13 12
	ldsb	[%i4+%i5], %i2
	cmp	%i2, 0
	bne	.L2
	 nop
.L3:
.LBB31:
	.loc 1 14 62 discriminator 3
	stb	%i3, [%i4+%g1]
	.loc 1 14 43 discriminator 3
	add	%g1, %i5, %g1
	.loc 1 14 35 discriminator 3
	cmp	%g1, 2000
	bg	.L2
	 nop
	.loc 1 14 62
	stb	%i3, [%i4+%g1]
	.loc 1 14 43
	add	%g1, %i5, %g1
	.loc 1 14 35
	cmp	%g1, 2000
	ble	.L3
	 nop
	b,a	.L2
.L17:
.LBE31:
.LBE29:
.LBB32:
	.loc 1 15 14
	mov	2, %g1
	b,a	.L9
.L19:
	sra	%g1, 31, %i3
	wr	%i3, 0, %y
	nop
	nop
	nop
	sdiv	%g1, 10, %i5
.L8:
.LBB33:
.LBB34:
	.loc 1 8 17
	sll	%i5, 2, %o0
	add	%o0, %i5, %o0
	add	%o0, %o0, %o0
	sub	%g1, %o0, %o0
	.loc 1 8 5
	add	%o0, 48, %o0
.LBB35:
.LBB36:
	.file 2 "runtime/plug.h"
	.loc 2 31 5
#APP
! 31 "runtime/plug.h" 1
	ta 2
! 0 "" 2
#NO_APP
.LBE36:
.LBE35:
.LBB37:
.LBB38:
	.loc 2 30 18
	mov	32, %o0
	.loc 2 31 5
#APP
! 31 "runtime/plug.h" 1
	ta 2
! 0 "" 2
#NO_APP
.L5:
.LBE38:
.LBE37:
.LBE34:
.LBE33:
	.loc 1 15 30 discriminator 4
	add	%g1, 1, %g1
	.loc 1 15 23 discriminator 4
	cmp	%g1, 2001
	be	.L18
	 nop
.L9:
	.loc 1 15 37 discriminator 6
	ldsb	[%i4+%g1], %i5
	cmp	%i5, 0
	bne	.L5
	 nop
.LBB46:
.LBB45:
	.loc 1 5 8
	cmp	%g1, 999
	ble	.L6
	 nop
	.loc 1 5 32
	sra	%g1, 31, %i5
	wr	%i5, 0, %y
	nop
	nop
	nop
	sdiv	%g1, 1000, %o0
	.loc 1 5 20
	add	%o0, 48, %o0
.LBB39:
.LBB40:
	.loc 2 31 5
#APP
! 31 "runtime/plug.h" 1
	ta 2
! 0 "" 2
#NO_APP
.L6:
.LBE40:
.LBE39:
	.loc 1 6 8
	cmp	%g1, 99
	ble	.L7
	 nop
	.loc 1 6 31
	sra	%g1, 31, %i5
	wr	%i5, 0, %y
	nop
	nop
	nop
	sdiv	%g1, 100, %o0
	.loc 1 6 37
	sra	%o0, 31, %i5
	wr	%i5, 0, %y
	nop
	nop
	nop
	sdiv	%o0, 10, %i3
	sll	%i3, 2, %i5
	add	%i5, %i3, %i5
	add	%i5, %i5, %i5
	sub	%o0, %i5, %o0
	.loc 1 6 19
	add	%o0, 48, %o0
.LBB41:
.LBB42:
	.loc 2 31 5
#APP
! 31 "runtime/plug.h" 1
	ta 2
! 0 "" 2
#NO_APP
.L7:
.LBE42:
.LBE41:
	.loc 1 7 8
	cmp	%g1, 9
	ble	.L19
	 nop
	.loc 1 7 30
	sra	%g1, 31, %i3
	wr	%i3, 0, %y
	nop
	nop
	nop
	sdiv	%g1, 10, %i5
	.loc 1 7 35
	sra	%i5, 31, %i2
	wr	%i2, 0, %y
	nop
	nop
	nop
	sdiv	%i5, 10, %i3
	sll	%i3, 2, %o0
	add	%o0, %i3, %o0
	add	%o0, %o0, %o0
	sub	%i5, %o0, %o0
	.loc 1 7 18
	add	%o0, 48, %o0
.LBB43:
.LBB44:
	.loc 2 31 5
#APP
! 31 "runtime/plug.h" 1
	ta 2
! 0 "" 2
	.loc 2 32 1
#NO_APP
	b,a	.L8
.L18:
.LBE44:
.LBE43:
.LBE45:
.LBE46:
.LBE32:
.LBB47:
.LBB48:
	.loc 2 30 18
	mov	10, %o0
	.loc 2 31 5
#APP
! 31 "runtime/plug.h" 1
	ta 2
! 0 "" 2
#NO_APP
.LBE48:
.LBE47:
	.loc 1 18 1
	mov	0, %i0
	restore
	jmp	%o7+8
	 nop
	.cfi_endproc
.LFE14:
	.size	main, .-main
	.local	composite
	.common	composite,2001,8
	.section	".text"
.Letext0:
