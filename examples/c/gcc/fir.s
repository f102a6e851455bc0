	.file	"fir.c"
	.section	".text"
.Ltext0:
	.cfi_sections	.debug_frame
	.file 0 "." "fir.c"
	.section	.text.startup,"ax",@progbits
	.align 4
	.global main
	.type	main, #function
	.proc	04
main:
.LFB14:
	.file 1 "fir.c"
	.loc 1 21 16
	.cfi_startproc
	save	%sp, -96, %sp
	.cfi_window_save
	.cfi_register 15, 31
	.cfi_def_cfa_register 30
.LBB14:
.LBB15:
	.file 2 "runtime/plug.h"
	.loc 2 24 5
#APP
! 24 "runtime/plug.h" 1
	ta 1
! 0 "" 2
#NO_APP
.LBE15:
.LBE14:
	.loc 1 23 30
	orcc	%o0, 0, %g1
	bl	.L3
	 nop
.LBB17:
.LBB18:
.LBB19:
	.loc 1 9 24
	sethi	%hi(at), %o5
	.loc 1 10 14
	sethi	%hi(line), %i1
	or	%i1, %lo(line), %i1
.LBB20:
	.loc 1 12 19
	sethi	%hi(tap), %i0
	or	%i0, %lo(tap), %i0
.LBE20:
	.loc 1 17 8
	sethi	%hi(31744), %o4
	or	%o4, 1023, %o4
	.loc 1 18 8
	sethi	%hi(-32768), %o3
.L2:
.LBE19:
.LBE18:
.LBE17:
.LBB28:
.LBB29:
	.loc 2 24 5
#APP
! 24 "runtime/plug.h" 1
	ta 1
! 0 "" 2
#NO_APP
.LBE29:
.LBE28:
	.loc 1 23 30
	cmp	%o0, 0
	bl	.L3
	 nop
.LBB30:
	.loc 1 24 35
	sll	%g1, 8, %g1
	.loc 1 24 17
	or	%g1, %o0, %g1
	mov	%g1, %i5
.LBB23:
.LBB22:
	.loc 1 9 24
	ld	[%o5+%lo(at)], %o2
	.loc 1 10 14
	add	%o2, %o2, %i4
	sth	%g1, [%i1+%i4]
	.loc 1 9 24
	mov	%o2, %i4
	.loc 1 10 14
	mov	-13, %g1
	.loc 1 9 9
	sethi	%hi(16384), %i2
.LBB21:
	.loc 1 11 14
	mov	0, %i3
	b,a	.L6
.L15:
	.loc 1 12 19
	add	%i3, %i3, %g1
	lduh	[%i0+%g1], %g1
	.loc 1 12 29
	add	%i4, %i4, %i5
	lduh	[%i1+%i5], %i5
.L6:
	.loc 1 12 19
	sll	%g1, 16, %g1
	sra	%g1, 16, %g1
	.loc 1 12 29
	sll	%i5, 16, %i5
	sra	%i5, 16, %i5
	.loc 1 12 23
	smul	%g1, %i5, %g1
	.loc 1 12 13
	add	%i2, %g1, %i2
	.loc 1 13 12
	addcc	%i4, -1, %i4
	bpos	.L4
	 nop
	.loc 1 13 24
	mov	30, %i4
.L4:
	.loc 1 11 32
	add	%i3, 1, %i3
	.loc 1 11 23
	cmp	%i3, 31
	bne	.L15
	 nop
.LBE21:
	.loc 1 15 9
	add	%o2, 1, %g1
	xor	%g1, 31, %i5
	cmp	%g0, %i5
	subx	%g0, 0, %i5
	and	%g1, %i5, %g1
	.loc 1 15 8
	st	%g1, [%o5+%lo(at)]
	.loc 1 16 9
	sra	%i2, 15, %i2
	.loc 1 17 8
	cmp	%i2, %o4
	ble	.L8
	 nop
	mov	%o4, %i2
.L8:
	.loc 1 18 8
	cmp	%i2, %o3
	bge	.L9
	 nop
	mov	%o3, %i2
.L9:
.LBE22:
.LBE23:
	.loc 1 25 9
	sra	%i2, 8, %o0
.LBB24:
.LBB25:
	.loc 2 31 5
#APP
! 31 "runtime/plug.h" 1
	ta 2
! 0 "" 2
#NO_APP
.LBE25:
.LBE24:
.LBB26:
.LBB27:
	.loc 2 30 18
	mov	%i2, %o0
	.loc 2 31 5
#APP
! 31 "runtime/plug.h" 1
	ta 2
! 0 "" 2
#NO_APP
.LBE27:
.LBE26:
.LBE30:
.LBB31:
.LBB16:
	.loc 2 24 5
#APP
! 24 "runtime/plug.h" 1
	ta 1
! 0 "" 2
#NO_APP
.LBE16:
.LBE31:
	.loc 1 23 30
	orcc	%o0, 0, %g1
	bge	.L2
	 nop
.L3:
	.loc 1 29 1
	mov	0, %i0
	restore
	jmp	%o7+8
	 nop
	.cfi_endproc
.LFE14:
	.size	main, .-main
	.local	at
	.common	at,4,4
	.local	line
	.common	line,62,2
	.section	".rodata"
	.align 2
	.type	tap, #object
	.size	tap, 62
tap:
	.half	-13
	.half	-24
	.half	-30
	.half	0
	.half	84
	.half	205
	.half	287
	.half	224
	.half	-79
	.half	-602
	.half	-1133
	.half	-1276
	.half	-560
	.half	1196
	.half	3700
	.half	6174
	.half	7700
	.half	6174
	.half	3700
	.half	1196
	.half	-560
	.half	-1276
	.half	-1133
	.half	-602
	.half	-79
	.half	224
	.half	287
	.half	205
	.half	84
	.half	0
	.half	-30
	.section	".text"
.Letext0:
