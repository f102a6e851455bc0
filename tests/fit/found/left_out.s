! given  puts 4f4b, status 0
! What nothing names from main on is left out: a table too great for an image, one that names what stands nowhere, a
! function that has no form here, and those that only such functions and tables name. What a table names stays, which a
! table names that main does.
	.section ".text"
	.align 4
	.global main
	.type main, #function
main:
	save %sp,-96,%sp
	sethi %hi(outer),%l0
	ld [%l0+%lo(outer)],%l1
	ldub [%l1],%o0
	ta 2
	ldub [%l1+1],%o0
	ta 2
	mov 0,%i0
	ret
	restore
	.size main, .-main
	.global unused
	.type unused, #function
unused:
	save %sp,-96,%sp
	sethi %hi(great),%l0
	or %l0,%lo(great),%l0
	sethi %hi(other),%l1
	or %l1,%lo(other),%l1
	jmp %l0+%l1
	 nop
	.size unused, .-unused
	.type other, #function
other:
	save %sp,-96,%sp
	call nowhere
	 nop
	ret
	restore
	.size other, .-other
	.section ".data"
	.align 4
great:
	.skip 300000
lost:
	.word nowhere
	.word other
	.word great
	.align 4
outer:
	.word inner
	.section ".rodata"
inner:
	.ascii "OK"
