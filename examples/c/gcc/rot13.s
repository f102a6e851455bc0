	.file	"rot13.c"
	.section	".text"
.Ltext0:
	.cfi_sections	.debug_frame
	.file 0 "." "rot13.c"
	.section	.text.startup,"ax",@progbits
	.align 4
	.global main
	.type	main, #function
	.proc	04
main:
.LFB14:
	.file 1 "rot13.c"
	.loc 1 7 16
	.cfi_startproc
	save	%sp, -96, %sp
	.cfi_window_save
	.cfi_register 15, 31
	.cfi_def_cfa_register 30
.LBB10:
	.loc 1 8 15
	mov	0, %g1
	.loc 1 8 24
	sethi	%hi(999424), %i4
	or	%i4, 576, %i4
	b,a	.L5
.L3:
.LBB11:
.LBB12:
.LBB13:
	.loc 1 4 18
	add	%o0, -65, %i5
	.loc 1 4 8
	cmp	%i5, 25
	bgu	.L4
	 nop
	.loc 1 4 53
	add	%o0, -52, %o0
	.loc 1 4 59
	sra	%o0, 31, %i3
	wr	%i3, 0, %y
	nop
	nop
	nop
	sdiv	%o0, 26, %i5
	smul	%i5, 26, %i5
	sub	%o0, %i5, %o0
	.loc 1 4 42
	add	%o0, 65, %o0
.L4:
.LBE13:
.LBE12:
.LBB15:
.LBB16:
	.file 2 "runtime/plug.h"
	.loc 2 31 5
#APP
! 31 "runtime/plug.h" 1
	ta 2
! 0 "" 2
#NO_APP
.LBE16:
.LBE15:
.LBE11:
	.loc 1 8 36
	add	%g1, 1, %g1
	.loc 1 8 24
	cmp	%g1, %i4
	be	.L2
	 nop
.L5:
.LBB22:
.LBB18:
.LBB19:
	.loc 2 24 5
#APP
! 24 "runtime/plug.h" 1
	ta 1
! 0 "" 2
#NO_APP
.LBE19:
.LBE18:
	.loc 1 10 12
	cmp	%o0, 0
	bl	.L2
	 nop
.LBB20:
.LBB14:
	.loc 1 3 18
	add	%o0, -97, %i5
	.loc 1 3 8
	cmp	%i5, 25
	bgu	.L3
	 nop
	.loc 1 3 53
	add	%o0, -84, %o0
	.loc 1 3 59
	sra	%o0, 31, %i3
	wr	%i3, 0, %y
	nop
	nop
	nop
	sdiv	%o0, 26, %i5
	smul	%i5, 26, %i5
	sub	%o0, %i5, %o0
	.loc 1 3 42
	add	%o0, 97, %o0
.LBE14:
.LBE20:
.LBB21:
.LBB17:
	.loc 2 31 5
#APP
! 31 "runtime/plug.h" 1
	ta 2
! 0 "" 2
#NO_APP
.LBE17:
.LBE21:
.LBE22:
	.loc 1 8 36
	add	%g1, 1, %g1
	.loc 1 8 24
	cmp	%g1, %i4
	bne	.L5
	 nop
.L2:
.LBE10:
	.loc 1 14 1
	mov	0, %i0
	restore
	jmp	%o7+8
	 nop
	.cfi_endproc
.LFE14:
	.size	main, .-main
	.section	".text"
.Letext0:
