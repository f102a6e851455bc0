	.file	"json.c"
	.section	".text"
.Ltext0:
	.cfi_sections	.debug_frame
	.file 0 "." "json.c"
	.section	.rodata.str1.8,"aMS",@progbits,1
	.align 8
.LC0:
	.asciz	"true"
	.align 8
.LC1:
	.asciz	"false"
	.align 8
.LC2:
	.asciz	"null"
	.section	.text.startup,"ax",@progbits
	.align 4
	.global main
	.type	main, #function
	.proc	04
main:
.LFB21:
	.file 1 "json.c"
	.loc 1 88 16
	.cfi_startproc
	save	%sp, -96, %sp
	.cfi_window_save
	.cfi_register 15, 31
	.cfi_def_cfa_register 30
.LBB791:
.LBB792:
.LBB793:
.LBB794:
	.file 2 "runtime/plug.h"
	.loc 2 24 5
#APP
! 24 "runtime/plug.h" 1
	ta 1
! 0 "" 2
	.loc 2 25 12
#NO_APP
	mov	%o0, %g1
.LBE794:
.LBE793:
	.loc 1 5 31
	sethi	%hi(look), %i3
	st	%o0, [%i3+%lo(look)]
.LBE792:
.LBE791:
.LBB795:
.LBB796:
	.loc 1 47 9
	mov	0, %i0
.LBB797:
.LBB798:
	.loc 1 6 47
	sethi	%hi(-8389632), %i2
	or	%i2, 1004, %i2
.LBE798:
.LBE797:
.LBB808:
	.loc 1 71 23
	sethi	%hi(depth), %i1
	.loc 1 72 28
	sethi	%hi(stack), %o5
	or	%o5, %lo(stack), %o5
	mov	%i3, %o4
.LBE808:
.LBB873:
	sethi	%hi(.LC1), %l2
	sethi	%hi(1711276032), %l1
	sethi	%hi(.LC0), %l0
	sethi	%hi(1946157056), %o1
.LBB874:
.LBB875:
	.loc 1 15 13
	mov	1, %o2
	sethi	%hi(21234688), %o3
	or	%o3, 65, %o3
.L3:
.LBE875:
.LBE874:
.LBE873:
.LBB980:
.LBB803:
	.loc 1 6 47
	add	%g1, -9, %i5
	mov	1, %i4
	cmp	%i5, 23
	bgu	.L4
	 nop
	sra	%i2, %i5, %i5
	and	%i5, 1, %i4
.L4:
	andcc	%i4, 0xff, %g0
	be	.L5
	 nop
.LBE803:
.LBE980:
	.loc 1 50 12
	cmp	%i0, 0
	bne	.L6
	 nop
	.loc 1 51 16
	and	%g1, -33, %i5
	cmp	%i5, 91
	be	.L170
	 nop
.LBB981:
	.loc 1 65 49
	cmp	%g1, 34
	be	.L171
	 nop
	.loc 1 65 81
	cmp	%g1, 116
	be	.L172
	 nop
	.loc 1 66 24
	cmp	%g1, 102
	be	.L173
	 nop
	.loc 1 66 56
	cmp	%g1, 110
	be	.L174
	 nop
.LBB904:
.LBB905:
	.loc 1 29 8
	cmp	%g1, 45
	bne	.L46
	 nop
.LBB906:
.LBB907:
.LBB908:
.LBB909:
	.loc 2 24 5
#APP
! 24 "runtime/plug.h" 1
	ta 1
! 0 "" 2
	.loc 2 25 12
#NO_APP
	mov	%o0, %g1
.LBE909:
.LBE908:
	.loc 1 5 31
	st	%o0, [%i3+%lo(look)]
.L46:
.LBE907:
.LBE906:
	.loc 1 30 8
	cmp	%g1, 48
	be	.L175
	 nop
.LBB910:
.LBB911:
	.loc 1 7 46
	add	%g1, -48, %g1
.LBE911:
.LBE910:
	.loc 1 31 15
	cmp	%g1, 9
	bgu	.L8
	 nop
	or	%o4, %lo(look), %l3
.L50:
.LBB912:
.LBB913:
.LBB914:
.LBB915:
	.loc 2 24 5
#APP
! 24 "runtime/plug.h" 1
	ta 1
! 0 "" 2
#NO_APP
.LBE915:
.LBE914:
	.loc 1 5 31
	st	%o0, [%l3]
.LBE913:
.LBE912:
.LBB916:
.LBB917:
	.loc 1 7 46
	add	%o0, -48, %g1
.LBE917:
.LBE916:
	.loc 1 31 50
	cmp	%g1, 9
	bleu	.L50
	 nop
	.loc 1 32 8
	cmp	%o0, 46
	be	.L176
	 nop
.L51:
	.loc 1 33 8
	and	%o0, -33, %o0
	cmp	%o0, 69
	be	.L177
	 nop
.L39:
.LBE905:
.LBE904:
.LBB952:
.LBB953:
	.loc 1 42 12
	mov	1, %i0
.LBE953:
.LBE952:
.LBE981:
.LBB982:
.LBB804:
	.loc 1 6 40
	ld	[%l3], %g1
	b,a	.L3
.L177:
.LBE804:
.LBE982:
.LBB983:
.LBB961:
.LBB950:
.LBB918:
.LBB919:
.LBB920:
.LBB921:
	.loc 2 24 5
#APP
! 24 "runtime/plug.h" 1
	ta 1
! 0 "" 2
	.loc 2 25 12
#NO_APP
	mov	%o0, %g1
.LBE921:
.LBE920:
	.loc 1 5 31
	st	%o0, [%l3]
.LBE919:
.LBE918:
	.loc 1 35 12
	add	%o0, -43, %i5
	andcc	%i5, -3, %g0
	bne	.L54
	 nop
.LBB922:
.LBB923:
.LBB924:
.LBB925:
	.loc 2 24 5
#APP
! 24 "runtime/plug.h" 1
	ta 1
! 0 "" 2
	.loc 2 25 12
#NO_APP
	mov	%o0, %g1
.LBE925:
.LBE924:
	.loc 1 5 31
	st	%o0, [%l3]
.L54:
.LBE923:
.LBE922:
.LBB926:
.LBB927:
	.loc 1 7 46
	add	%g1, -48, %g1
.LBE927:
.LBE926:
	.loc 1 36 12
	cmp	%g1, 9
	bgu	.L8
	 nop
.L55:
.LBB928:
.LBB929:
.LBB930:
.LBB931:
	.loc 2 24 5
#APP
! 24 "runtime/plug.h" 1
	ta 1
! 0 "" 2
#NO_APP
.LBE931:
.LBE930:
	.loc 1 5 31
	st	%o0, [%l3]
.LBE929:
.LBE928:
.LBB932:
.LBB933:
	.loc 1 7 46
	add	%o0, -48, %o0
.LBE933:
.LBE932:
	.loc 1 37 16
	cmp	%o0, 9
	bleu	.L55
	 nop
.LBE950:
.LBE961:
.LBB962:
.LBB958:
	.loc 1 42 12
	mov	1, %i0
.LBE958:
.LBE962:
.LBE983:
.LBB984:
.LBB805:
	.loc 1 6 40
	ld	[%l3], %g1
	b,a	.L3
.L5:
.LBB799:
.LBB800:
.LBB801:
.LBB802:
	.loc 2 24 5
#APP
! 24 "runtime/plug.h" 1
	ta 1
! 0 "" 2
	.loc 2 25 12
#NO_APP
	mov	%o0, %g1
.LBE802:
.LBE801:
	.loc 1 5 31
	st	%o0, [%i3+%lo(look)]
	.loc 1 5 40
	b,a	.L3
.L6:
.LBE800:
.LBE799:
.LBE805:
.LBE984:
.LBB985:
	.loc 1 71 23
	ld	[%i1+%lo(depth)], %i5
	.loc 1 71 16
	cmp	%i5, 0
	be	.L178
	 nop
	.loc 1 72 28
	add	%o5, %i5, %i5
	.loc 1 72 17
	ldsb	[%i5-1], %i5
	.loc 1 73 16
	cmp	%g1, 44
	be	.L179
	 nop
	.loc 1 83 23
	cmp	%g1, 93
	be	.L180
	 nop
	.loc 1 83 52
	cmp	%g1, 125
	bne	.L8
	 nop
	.loc 1 83 68
	cmp	%i5, 123
	bne	.L8
	 nop
.L76:
.LBB809:
.LBB810:
.LBB811:
.LBB812:
	.loc 2 24 5
#APP
! 24 "runtime/plug.h" 1
	ta 1
! 0 "" 2
	.loc 2 25 12
#NO_APP
	mov	%o0, %g1
.LBE812:
.LBE811:
	.loc 1 5 31
	st	%o0, [%i3+%lo(look)]
.LBE810:
.LBE809:
	.loc 1 83 99
	ld	[%i1+%lo(depth)], %i5
	add	%i5, -1, %i5
	st	%i5, [%i1+%lo(depth)]
.LBE985:
.LBB986:
.LBB806:
	.loc 1 6 34
	b,a	.L3
.L179:
.LBE806:
.LBE986:
.LBB987:
.LBB813:
.LBB814:
.LBB815:
.LBB816:
	.loc 2 24 5
#APP
! 24 "runtime/plug.h" 1
	ta 1
! 0 "" 2
	.loc 2 25 12
#NO_APP
	mov	%o0, %g1
.LBE816:
.LBE815:
	.loc 1 5 31
	or	%i3, %lo(look), %l3
	st	%o0, [%i3+%lo(look)]
.LBE814:
.LBE813:
.LBB817:
.LBB818:
	.loc 1 6 47
	sethi	%hi(-8389632), %l4
	or	%l4, 1004, %l4
.LBE818:
.LBE817:
	.loc 1 75 20
	cmp	%i5, 123
	be	.L59
	 nop
	.loc 1 82 23
	mov	0, %i0
	b,a	.L3
.L61:
.LBB824:
.LBB823:
.LBB819:
.LBB820:
.LBB821:
.LBB822:
	.loc 2 24 5
#APP
! 24 "runtime/plug.h" 1
	ta 1
! 0 "" 2
	.loc 2 25 12
#NO_APP
	mov	%o0, %g1
.LBE822:
.LBE821:
	.loc 1 5 31
	st	%o0, [%l3]
.L59:
.LBE820:
.LBE819:
	.loc 1 6 47
	add	%g1, -9, %o0
	mov	%i4, %i5
	cmp	%o0, 23
	bgu	.L60
	 nop
	sra	%l4, %o0, %o0
	and	%o0, 1, %i5
.L60:
	andcc	%i5, 0xff, %g0
	be	.L61
	 nop
.LBE823:
.LBE824:
	.loc 1 77 24
	cmp	%g1, 34
	bne	.L8
	 nop
.LBB825:
.LBB826:
.LBB827:
.LBB828:
.LBB829:
.LBB830:
	.loc 2 24 5
#APP
! 24 "runtime/plug.h" 1
	ta 1
! 0 "" 2
#NO_APP
.LBE830:
.LBE829:
	.loc 1 5 31
	st	%o0, [%l3]
.LBE828:
.LBE827:
	.loc 1 11 17
	cmp	%o0, 34
	be	.L62
	 nop
	.loc 1 15 13
	mov	1, %l4
	sethi	%hi(21234688), %i4
	or	%i4, 65, %i4
	b,a	.L71
.L65:
.LBB831:
.LBB832:
.LBB833:
.LBB834:
	.loc 2 24 5
#APP
! 24 "runtime/plug.h" 1
	ta 1
! 0 "" 2
#NO_APP
.LBE834:
.LBE833:
	.loc 1 5 31
	st	%o0, [%l3]
.LBE832:
.LBE831:
	.loc 1 11 17
	cmp	%o0, 34
	be	.L62
	 nop
.L71:
	.loc 1 12 12
	cmp	%o0, 31
	ble	.L8
	 nop
	.loc 1 13 12
	cmp	%o0, 92
	bne	.L65
	 nop
.LBB835:
.LBB836:
.LBB837:
.LBB838:
	.loc 2 24 5
#APP
! 24 "runtime/plug.h" 1
	ta 1
! 0 "" 2
	.loc 2 25 12
#NO_APP
	mov	%o0, %g1
.LBE838:
.LBE837:
	.loc 1 5 31
	st	%o0, [%l3]
.LBE836:
.LBE835:
	.loc 1 15 13
	cmp	%o0, 117
	bg	.L8
	 nop
	cmp	%o0, 91
	ble	.L181
	 nop
	add	%o0, -92, %o0
	sll	%l4, %o0, %o0
	andcc	%o0, %i4, %g0
	bne	.L65
	 nop
	cmp	%g1, 117
	be	.L182
	 nop
.L8:
.LBE826:
.LBE825:
.LBE987:
.LBB988:
	.loc 1 52 51
	mov	0, %i0
.L87:
.LBE988:
.LBE796:
.LBE795:
	.loc 1 91 5
	mov	110, %o0
.L77:
.LBB1078:
.LBB1079:
	.loc 2 31 5 discriminator 4
#APP
! 31 "runtime/plug.h" 1
	ta 2
! 0 "" 2
#NO_APP
.LBE1079:
.LBE1078:
.LBB1080:
.LBB1081:
	.loc 2 30 18 discriminator 4
	mov	10, %o0
	.loc 2 31 5 discriminator 4
#APP
! 31 "runtime/plug.h" 1
	ta 2
! 0 "" 2
#NO_APP
.LBE1081:
.LBE1080:
	.loc 1 93 1 discriminator 4
	xor	%i0, 1, %i0
	restore
	jmp	%o7+8
	 nop
.L170:
.LBB1082:
.LBB1076:
.LBB1053:
	.loc 1 52 27
	ld	[%i1+%lo(depth)], %i5
	.loc 1 52 20
	cmp	%i5, 64
	be	.L8
	 nop
	.loc 1 53 28
	add	%i5, 1, %o0
	st	%o0, [%i1+%lo(depth)]
	.loc 1 53 32
	stb	%g1, [%o5+%i5]
.LBB989:
.LBB990:
.LBB991:
.LBB992:
	.loc 2 24 5
#APP
! 24 "runtime/plug.h" 1
	ta 1
! 0 "" 2
#NO_APP
	or	%o4, %lo(look), %l3
.L9:
.LBE992:
.LBE991:
	.loc 1 5 31
	st	%o0, [%l3]
.LBE990:
.LBE989:
.LBB993:
.LBB994:
	.loc 1 6 47
	add	%o0, -9, %i5
	mov	%i4, %l4
	cmp	%i5, 23
	bgu	.L10
	 nop
	sra	%i2, %i5, %i5
	and	%i5, 1, %l4
.L10:
	andcc	%l4, 0xff, %g0
	be	.L11
	 nop
.LBE994:
.LBE993:
	.loc 1 56 20
	cmp	%g1, 91
	be	.L183
	 nop
	.loc 1 57 25
	cmp	%g1, 123
	be	.L184
	 nop
.L80:
	mov	%o0, %g1
	b,a	.L3
.L184:
	.loc 1 57 38
	cmp	%o0, 125
	be	.L185
	 nop
	.loc 1 59 24
	cmp	%o0, 34
	bne	.L8
	 nop
.LBB1000:
.LBB1001:
.LBB1002:
.LBB1003:
.LBB1004:
.LBB1005:
	.loc 2 24 5
#APP
! 24 "runtime/plug.h" 1
	ta 1
! 0 "" 2
#NO_APP
.LBE1005:
.LBE1004:
	.loc 1 5 31
	st	%o0, [%o4+%lo(look)]
.LBE1003:
.LBE1002:
	.loc 1 11 17
	cmp	%o0, 34
	be	.L15
	 nop
	.loc 1 15 13
	mov	1, %i4
	sethi	%hi(21234688), %i5
	or	%i5, 65, %i5
	b,a	.L24
.L18:
.LBB1006:
.LBB1007:
.LBB1008:
.LBB1009:
	.loc 2 24 5
#APP
! 24 "runtime/plug.h" 1
	ta 1
! 0 "" 2
#NO_APP
.LBE1009:
.LBE1008:
	.loc 1 5 31
	st	%o0, [%l3]
.LBE1007:
.LBE1006:
	.loc 1 11 17
	cmp	%o0, 34
	be	.L15
	 nop
.L24:
	.loc 1 12 12
	cmp	%o0, 31
	ble	.L8
	 nop
	.loc 1 13 12
	cmp	%o0, 92
	bne	.L18
	 nop
.LBB1010:
.LBB1011:
.LBB1012:
.LBB1013:
	.loc 2 24 5
#APP
! 24 "runtime/plug.h" 1
	ta 1
! 0 "" 2
#NO_APP
.LBE1013:
.LBE1012:
	.loc 1 5 31
	st	%o0, [%l3]
.LBE1011:
.LBE1010:
	.loc 1 15 13
	cmp	%o0, 117
	bg	.L8
	 nop
	cmp	%o0, 91
	ble	.L186
	 nop
	add	%o0, -92, %i3
	sll	%i4, %i3, %i3
	andcc	%i3, %i5, %g0
	bne	.L18
	 nop
	cmp	%o0, 117
	bne	.L8
	 nop
	mov	0, %i3
.L23:
.LBB1014:
.LBB1015:
.LBB1016:
.LBB1017:
.LBB1018:
	.loc 2 24 5
#APP
! 24 "runtime/plug.h" 1
	ta 1
! 0 "" 2
	.loc 2 25 12
#NO_APP
	mov	%o0, %g1
.LBE1018:
.LBE1017:
	.loc 1 5 31
	st	%o0, [%l3]
.LBE1016:
.LBE1015:
.LBB1019:
.LBB1020:
.LBB1021:
.LBB1022:
	.loc 1 7 46
	add	%o0, -48, %o0
.LBE1022:
.LBE1021:
	.loc 1 8 73
	cmp	%o0, 9
	bleu	.L131
	 nop
	.loc 1 8 47
	and	%g1, -33, %g1
	add	%g1, -65, %g1
	cmp	%g1, 5
	bgu	.L8
	 nop
.L131:
.LBE1020:
.LBE1019:
	.loc 1 18 41
	add	%i3, 1, %i3
	.loc 1 18 35
	cmp	%i3, 4
	bne	.L23
	 nop
	b,a	.L18
.L11:
.LBE1014:
.LBE1001:
.LBE1000:
.LBB1030:
.LBB999:
.LBB995:
.LBB996:
.LBB997:
.LBB998:
	.loc 2 24 5
#APP
! 24 "runtime/plug.h" 1
	ta 1
! 0 "" 2
#NO_APP
.LBE998:
.LBE997:
	.loc 1 5 40
	b,a	.L9
.L180:
.LBE996:
.LBE995:
.LBE999:
.LBE1030:
.LBE1053:
.LBB1054:
	.loc 1 83 37
	cmp	%i5, 91
	be	.L76
	 nop
.LBE1054:
.LBB1055:
	.loc 1 52 51
	mov	0, %i0
	b,a	.L87
.L175:
.LBE1055:
.LBB1056:
.LBB963:
.LBB951:
.LBB934:
.LBB935:
.LBB936:
.LBB937:
	.loc 2 24 5
#APP
! 24 "runtime/plug.h" 1
	ta 1
! 0 "" 2
#NO_APP
.LBE937:
.LBE936:
	.loc 1 5 31
	or	%i3, %lo(look), %l3
	st	%o0, [%i3+%lo(look)]
.LBE935:
.LBE934:
	.loc 1 32 8
	cmp	%o0, 46
	bne	.L51
	 nop
.L176:
.LBB938:
.LBB939:
.LBB940:
.LBB941:
	.loc 2 24 5
#APP
! 24 "runtime/plug.h" 1
	ta 1
! 0 "" 2
#NO_APP
.LBE941:
.LBE940:
	.loc 1 5 31
	st	%o0, [%l3]
.LBE939:
.LBE938:
.LBB942:
.LBB943:
	.loc 1 7 46
	add	%o0, -48, %g1
.LBE943:
.LBE942:
	.loc 1 32 35
	cmp	%g1, 9
	bgu	.L8
	 nop
.L52:
.LBB944:
.LBB945:
.LBB946:
.LBB947:
	.loc 2 24 5
#APP
! 24 "runtime/plug.h" 1
	ta 1
! 0 "" 2
#NO_APP
.LBE947:
.LBE946:
	.loc 1 5 31
	st	%o0, [%l3]
.LBE945:
.LBE944:
.LBB948:
.LBB949:
	.loc 1 7 46
	add	%o0, -48, %g1
.LBE949:
.LBE948:
	.loc 1 32 70
	cmp	%g1, 9
	bleu	.L52
	 nop
	b,a	.L51
.L171:
.LBE951:
.LBE963:
.LBB964:
.LBB902:
.LBB876:
.LBB877:
.LBB878:
.LBB879:
	.loc 2 24 5
#APP
! 24 "runtime/plug.h" 1
	ta 1
! 0 "" 2
#NO_APP
.LBE879:
.LBE878:
	.loc 1 5 31
	or	%i3, %lo(look), %l3
	st	%o0, [%i3+%lo(look)]
.LBE877:
.LBE876:
	.loc 1 11 17
	cmp	%o0, 34
	bne	.L38
	 nop
	b,a	.L29
.L32:
.LBB880:
.LBB881:
.LBB882:
.LBB883:
	.loc 2 24 5
#APP
! 24 "runtime/plug.h" 1
	ta 1
! 0 "" 2
#NO_APP
.LBE883:
.LBE882:
	.loc 1 5 31
	st	%o0, [%l3]
.LBE881:
.LBE880:
	.loc 1 11 17
	cmp	%o0, 34
	be	.L29
	 nop
.L38:
	.loc 1 12 12
	cmp	%o0, 31
	ble	.L8
	 nop
	.loc 1 13 12
	cmp	%o0, 92
	bne	.L32
	 nop
.LBB884:
.LBB885:
.LBB886:
.LBB887:
	.loc 2 24 5
#APP
! 24 "runtime/plug.h" 1
	ta 1
! 0 "" 2
#NO_APP
.LBE887:
.LBE886:
	.loc 1 5 31
	st	%o0, [%l3]
.LBE885:
.LBE884:
	.loc 1 15 13
	cmp	%o0, 117
	bg	.L8
	 nop
	cmp	%o0, 91
	ble	.L187
	 nop
	add	%o0, -92, %g1
	sll	%o2, %g1, %g1
	andcc	%g1, %o3, %g0
	bne	.L32
	 nop
	cmp	%o0, 117
	bne	.L8
	 nop
	mov	0, %i5
.L37:
.LBB888:
.LBB889:
.LBB890:
.LBB891:
.LBB892:
	.loc 2 24 5
#APP
! 24 "runtime/plug.h" 1
	ta 1
! 0 "" 2
#NO_APP
.LBE892:
.LBE891:
	.loc 1 5 31
	st	%o0, [%l3]
.LBE890:
.LBE889:
.LBB893:
.LBB894:
.LBB895:
.LBB896:
	.loc 1 7 46
	add	%o0, -48, %g1
.LBE896:
.LBE895:
	.loc 1 8 73
	cmp	%g1, 9
	bleu	.L132
	 nop
	.loc 1 8 47
	and	%o0, -33, %g1
	add	%g1, -65, %g1
	cmp	%g1, 5
	bgu	.L8
	 nop
.L132:
.LBE894:
.LBE893:
	.loc 1 18 41
	add	%i5, 1, %i5
	.loc 1 18 35
	cmp	%i5, 4
	bne	.L37
	 nop
	b,a	.L32
.L187:
.LBE888:
	.loc 1 15 13
	cmp	%o0, 34
	be	.L32
	 nop
	cmp	%o0, 47
	be	.L32
	 nop
.LBE902:
.LBE964:
.LBE1056:
.LBB1057:
	.loc 1 52 51
	mov	0, %i0
	b,a	.L87
.L183:
	.loc 1 56 33
	cmp	%o0, 93
	bne	.L80
	 nop
.LBB1031:
.LBB1032:
.LBB1033:
.LBB1034:
	.loc 2 24 5
#APP
! 24 "runtime/plug.h" 1
	ta 1
! 0 "" 2
	.loc 2 25 12
#NO_APP
	mov	%o0, %g1
.LBE1034:
.LBE1033:
	.loc 1 5 31
	st	%o0, [%o4+%lo(look)]
.LBE1032:
.LBE1031:
	.loc 1 56 64
	ld	[%i1+%lo(depth)], %i5
	add	%i5, -1, %i5
	st	%i5, [%i1+%lo(depth)]
.LBE1057:
.LBB1058:
	.loc 1 68 23
	mov	1, %i0
.LBE1058:
.LBB1059:
	.loc 1 56 74
	b,a	.L3
.L181:
.LBE1059:
.LBB1060:
.LBB856:
.LBB853:
	.loc 1 15 13
	cmp	%o0, 34
	be	.L65
	 nop
	cmp	%o0, 47
	be	.L65
	 nop
.LBE853:
.LBE856:
.LBE1060:
.LBB1061:
	.loc 1 52 51
	mov	0, %i0
	b,a	.L87
.L172:
.LBE1061:
.LBB1062:
	or	%l0, %lo(.LC0), %i4
	mov	%o1, %i5
	b,a	.L41
.L188:
.LBB965:
.LBB966:
.LBB967:
.LBB968:
.LBB969:
.LBB970:
	.loc 2 24 5
#APP
! 24 "runtime/plug.h" 1
	ta 1
! 0 "" 2
	.loc 2 25 12
#NO_APP
	mov	%o0, %g1
.LBE970:
.LBE969:
	.loc 1 5 31
	or	%i3, %lo(look), %l3
	st	%o0, [%i3+%lo(look)]
.LBE968:
.LBE967:
	.loc 1 42 17
	add	%i4, 1, %i4
	.loc 1 42 12
	ldub	[%i4], %i5
	sll	%i5, 24, %i5
	cmp	%i5, 0
	be	.L39
	 nop
.L41:
	.loc 1 42 35
	sra	%i5, 24, %i5
	.loc 1 42 26
	cmp	%i5, %g1
	be	.L188
	 nop
.LBE966:
.LBE965:
.LBE1062:
.LBB1063:
	.loc 1 52 51
	mov	0, %i0
	b,a	.L87
.L173:
.LBE1063:
.LBB1064:
	or	%l2, %lo(.LC1), %i4
	mov	%l1, %i5
	b,a	.L43
.L189:
.LBB971:
.LBB972:
.LBB973:
.LBB974:
.LBB975:
.LBB976:
	.loc 2 24 5
#APP
! 24 "runtime/plug.h" 1
	ta 1
! 0 "" 2
	.loc 2 25 12
#NO_APP
	mov	%o0, %g1
.LBE976:
.LBE975:
	.loc 1 5 31
	or	%i3, %lo(look), %l3
	st	%o0, [%i3+%lo(look)]
.LBE974:
.LBE973:
	.loc 1 42 17
	add	%i4, 1, %i4
	.loc 1 42 12
	ldub	[%i4], %i5
	sll	%i5, 24, %i5
	cmp	%i5, 0
	be	.L39
	 nop
.L43:
	.loc 1 42 35
	sra	%i5, 24, %i5
	.loc 1 42 26
	cmp	%i5, %g1
	be	.L189
	 nop
.LBE972:
.LBE971:
.LBE1064:
.LBB1065:
	.loc 1 52 51
	mov	0, %i0
	b,a	.L87
.L174:
.LBE1065:
.LBB1066:
	sethi	%hi(.LC2), %i4
	or	%i4, %lo(.LC2), %i4
	sethi	%hi(1845493760), %i5
	b,a	.L45
.L190:
.LBB977:
.LBB959:
.LBB954:
.LBB955:
.LBB956:
.LBB957:
	.loc 2 24 5
#APP
! 24 "runtime/plug.h" 1
	ta 1
! 0 "" 2
	.loc 2 25 12
#NO_APP
	mov	%o0, %g1
.LBE957:
.LBE956:
	.loc 1 5 31
	or	%i3, %lo(look), %l3
	st	%o0, [%i3+%lo(look)]
.LBE955:
.LBE954:
	.loc 1 42 17
	add	%i4, 1, %i4
	.loc 1 42 12
	ldub	[%i4], %i5
	sll	%i5, 24, %i5
	cmp	%i5, 0
	be	.L39
	 nop
.L45:
	.loc 1 42 35
	sra	%i5, 24, %i5
	.loc 1 42 26
	cmp	%i5, %g1
	be	.L190
	 nop
.LBE959:
.LBE977:
.LBE1066:
.LBB1067:
	.loc 1 52 51
	mov	0, %i0
	b,a	.L87
.L186:
.LBB1035:
.LBB1028:
	.loc 1 15 13
	cmp	%o0, 34
	be	.L18
	 nop
	cmp	%o0, 47
	be	.L18
	 nop
.LBE1028:
.LBE1035:
	.loc 1 52 51
	mov	0, %i0
	b,a	.L87
.L185:
.LBB1036:
.LBB1037:
.LBB1038:
.LBB1039:
	.loc 2 24 5
#APP
! 24 "runtime/plug.h" 1
	ta 1
! 0 "" 2
	.loc 2 25 12
#NO_APP
	mov	%o0, %g1
.LBE1039:
.LBE1038:
	.loc 1 5 31
	st	%o0, [%o4+%lo(look)]
.LBE1037:
.LBE1036:
	.loc 1 57 69
	ld	[%i1+%lo(depth)], %i5
	add	%i5, -1, %i5
	st	%i5, [%i1+%lo(depth)]
.LBE1067:
.LBB1068:
	.loc 1 68 23
	mov	1, %i0
.LBE1068:
.LBB1069:
	.loc 1 57 79
	b,a	.L3
.L29:
.LBE1069:
.LBB1070:
.LBB978:
.LBB903:
.LBB897:
.LBB898:
.LBB899:
.LBB900:
.LBB901:
	.loc 2 24 5
#APP
! 24 "runtime/plug.h" 1
	ta 1
! 0 "" 2
#NO_APP
.LBE901:
.LBE900:
	.loc 1 5 31
	st	%o0, [%l3]
.LBE899:
.LBE898:
.LBE897:
.LBE903:
.LBE978:
.LBB979:
.LBB960:
	.loc 1 42 12
	mov	1, %i0
.LBE960:
.LBE979:
.LBE1070:
.LBB1071:
.LBB807:
	.loc 1 6 40
	ld	[%l3], %g1
	b,a	.L3
.L178:
.LBE807:
.LBE1071:
.LBB1072:
	.loc 1 71 41
	xnor	%g0, %g1, %g1
	cmp	%g0, %g1
	subx	%g0, -1, %i0
.LBE1072:
.LBE1076:
.LBE1082:
	.loc 1 91 5
	cmp	%i0, 0
	be	.L87
	 nop
	mov	121, %o0
	b,a	.L77
.L182:
.LBB1083:
.LBB1077:
.LBB1073:
.LBB857:
.LBB854:
	.loc 1 15 13
	mov	0, %l5
.L70:
.LBB839:
.LBB840:
.LBB841:
.LBB842:
.LBB843:
	.loc 2 24 5
#APP
! 24 "runtime/plug.h" 1
	ta 1
! 0 "" 2
	.loc 2 25 12
#NO_APP
	mov	%o0, %g1
.LBE843:
.LBE842:
	.loc 1 5 31
	st	%o0, [%l3]
.LBE841:
.LBE840:
.LBB844:
.LBB845:
.LBB846:
.LBB847:
	.loc 1 7 46
	add	%o0, -48, %l6
.LBE847:
.LBE846:
	.loc 1 8 73
	mov	%i0, %o0
	cmp	%l6, 9
	bleu	.L68
	 nop
	.loc 1 8 47
	and	%g1, -33, %g1
	add	%g1, -65, %g1
	cmp	%g1, 6
	addx	%g0, 0, %o0
.L68:
.LBE845:
.LBE844:
	.loc 1 18 58
	cmp	%o0, 0
	be	.L8
	 nop
	.loc 1 18 41
	add	%l5, 1, %l5
	.loc 1 18 35
	cmp	%l5, 4
	bne	.L70
	 nop
	b,a	.L65
.L15:
.LBE839:
.LBE854:
.LBE857:
.LBE1073:
.LBB1074:
.LBB1040:
.LBB1029:
.LBB1023:
.LBB1024:
.LBB1025:
.LBB1026:
.LBB1027:
	.loc 2 24 5
#APP
! 24 "runtime/plug.h" 1
	ta 1
! 0 "" 2
#NO_APP
.LBE1027:
.LBE1026:
	.loc 1 5 31
	st	%o0, [%o4+%lo(look)]
.LBE1025:
.LBE1024:
.LBE1023:
.LBE1029:
.LBE1040:
.LBB1041:
.LBB1042:
	.loc 1 6 40
	sethi	%hi(look), %i3
	or	%i3, %lo(look), %l3
	ld	[%i3+%lo(look)], %o0
	.loc 1 6 47
	sethi	%hi(-8389632), %i4
	or	%i4, 1004, %i4
.L25:
	add	%o0, -9, %g1
	mov	%l4, %i5
	cmp	%g1, 23
	bgu	.L26
	 nop
	sra	%i4, %g1, %g1
	and	%g1, 1, %i5
.L26:
	andcc	%i5, 0xff, %g0
	be	.L27
	 nop
.LBE1042:
.LBE1041:
	.loc 1 61 24
	cmp	%o0, 58
	bne	.L8
	 nop
.LBB1048:
.LBB1049:
.LBB1050:
.LBB1051:
	.loc 2 24 5
#APP
! 24 "runtime/plug.h" 1
	ta 1
! 0 "" 2
	.loc 2 25 12
#NO_APP
	mov	%o0, %g1
.LBE1051:
.LBE1050:
	.loc 1 5 31
	st	%o0, [%l3]
	.loc 1 5 40
	b,a	.L3
.L27:
.LBE1049:
.LBE1048:
.LBB1052:
.LBB1047:
.LBB1043:
.LBB1044:
.LBB1045:
.LBB1046:
	.loc 2 24 5
#APP
! 24 "runtime/plug.h" 1
	ta 1
! 0 "" 2
#NO_APP
.LBE1046:
.LBE1045:
	.loc 1 5 31
	st	%o0, [%l3]
	.loc 1 5 40
	b,a	.L25
.L62:
.LBE1044:
.LBE1043:
.LBE1047:
.LBE1052:
.LBE1074:
.LBB1075:
.LBB858:
.LBB855:
.LBB848:
.LBB849:
.LBB850:
.LBB851:
.LBB852:
	.loc 2 24 5
#APP
! 24 "runtime/plug.h" 1
	ta 1
! 0 "" 2
#NO_APP
.LBE852:
.LBE851:
	.loc 1 5 31
	st	%o0, [%l3]
.LBE850:
.LBE849:
.LBE848:
.LBE855:
.LBE858:
	.loc 1 77 37
	cmp	%i0, 0
	be	.L8
	 nop
.LBB859:
.LBB860:
	.loc 1 6 47
	sethi	%hi(-8389632), %i0
	or	%i0, 1004, %i0
.L72:
	add	%o0, -9, %g1
	mov	%i5, %i4
	cmp	%g1, 23
	bgu	.L73
	 nop
	sra	%i0, %g1, %g1
	and	%g1, 1, %i4
.L73:
	andcc	%i4, 0xff, %g0
	be	.L74
	 nop
.LBE860:
.LBE859:
	.loc 1 79 24
	cmp	%o0, 58
	bne	.L8
	 nop
.LBB866:
.LBB867:
.LBB868:
.LBB869:
	.loc 2 24 5
#APP
! 24 "runtime/plug.h" 1
	ta 1
! 0 "" 2
	.loc 2 25 12
#NO_APP
	mov	%o0, %g1
.LBE869:
.LBE868:
	.loc 1 5 31
	st	%o0, [%l3]
.LBE867:
.LBE866:
	.loc 1 82 23
	mov	0, %i0
.LBB871:
.LBB870:
	.loc 1 5 40
	b,a	.L3
.L74:
.LBE870:
.LBE871:
.LBB872:
.LBB865:
.LBB861:
.LBB862:
.LBB863:
.LBB864:
	.loc 2 24 5
#APP
! 24 "runtime/plug.h" 1
	ta 1
! 0 "" 2
#NO_APP
.LBE864:
.LBE863:
	.loc 1 5 31
	st	%o0, [%l3]
	.loc 1 5 40
	b,a	.L72
.LBE862:
.LBE861:
.LBE865:
.LBE872:
.LBE1075:
.LBE1077:
.LBE1083:
	.cfi_endproc
.LFE21:
	.size	main, .-main
	.local	look
	.common	look,4,4
	.local	depth
	.common	depth,4,4
	.local	stack
	.common	stack,64,8
	.section	".text"
.Letext0:
