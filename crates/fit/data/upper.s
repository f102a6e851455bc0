	.file	"upper.c"
	.section	".text"
.Ltext0:
	.cfi_sections	.debug_frame
	.file 0 "." "upper.c"
	.section	.text.startup,"ax",@progbits
	.align 4
	.global main
	.type	main, #function
	.proc	04
main:
.LFB13:
	.file 1 "upper.c"
	.loc 1 2 16
	.cfi_startproc
	save	%sp, -96, %sp
	.cfi_window_save
	.cfi_register 15, 31
	.cfi_def_cfa_register 30
.LBB6:
.LBB7:
	.file 2 "runtime/plug.h"
	.loc 2 24 5
#APP
! 24 "runtime/plug.h" 1
	ta 1
! 0 "" 2
#NO_APP
.LBE7:
.LBE6:
	.loc 1 4 24
	cmp	%o0, -1
	be	.L2
	 nop
.L4:
	.loc 1 5 22
	add	%o0, -97, %g1
	.loc 1 5 12
	cmp	%g1, 25
	bgu	.L3
	 nop
	.loc 1 5 37 discriminator 1
	add	%o0, -32, %o0
.L3:
.LBB9:
.LBB10:
	.loc 2 31 5
#APP
! 31 "runtime/plug.h" 1
	ta 2
! 0 "" 2
#NO_APP
.LBE10:
.LBE9:
.LBB11:
.LBB8:
	.loc 2 24 5
#APP
! 24 "runtime/plug.h" 1
	ta 1
! 0 "" 2
#NO_APP
.LBE8:
.LBE11:
	.loc 1 4 24
	cmp	%o0, -1
	bne	.L4
	 nop
.L2:
	.loc 1 9 1
	mov	0, %i0
	restore
	jmp	%o7+8
	 nop
	.cfi_endproc
.LFE13:
	.size	main, .-main
	.section	".text"
.Letext0:
