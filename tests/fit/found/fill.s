! given  puts 6162636455616263640055616263640065660055ff55070707ffff41410000000000000000001234567812345678ffff34567834567855ee01020909090909090334343404000003031234, status 0
! What fills room, strings in one directive, and what stands in the room before what is aligned: as GNU as has it.
	.section ".text"
	.align 4
	.global main
	.type main, #function
main:
	save %sp,-96,%sp
	sethi %hi(a),%l0
	or %l0,%lo(a),%l0
	mov 0,%l1
.L1:
	ldub [%l0+%l1],%o0
	ta 2
	add %l1,1,%l1
	cmp %l1,75
	bne .L1
	 nop
	mov 0,%i0
	ret
	restore
	.size main, .-main
	.section ".data"
a:
	.ascii "ab" "cd"
	.byte 0x55
	.asciz "ab" "cd"
	.byte 0x55
	.string "ab" "cd", "ef"
	.byte 0x55
	.ascii "" "\377"
	.byte 0x55
	.skip 3,7
	.space 2,-1
	.space 2 , 0x141
	.fill 3
	.fill 3,2
	.fill 2,4,0x12345678
	.fill 2,1,0x1ff
	.fill 2,3,0x12345678
	.byte 0x55
	.align 4,0xee
	.byte 1
	.byte 2
	.p2align 3,9
	.byte 3
	.balign 4,0x1234
	.byte 4
	.zero 2
	.zero 2,3
	.half 0x1234
