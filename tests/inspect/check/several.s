.services exit
.function main,leaf,0,0,4
.fuel 4
	mov 5000,%o0
.param 5,1,0
	ld %o0,%o1
	ba lop
main:	nop
! a comment may have any byte: é
	add %o0,1,%o0 ; é
.byte 1,2
