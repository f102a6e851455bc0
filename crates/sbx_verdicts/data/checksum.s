! Puts out the CRC-8 of its input (polynomial 07, begun with 0), up to 1,000,000 bytes, as two hexadecimal digits and a
! line's end.
!
! A table in the data: an address is shown to lie in the data where its range does. The byte and the checksum lie from 0
! to 255 each, so their exclusive or does, and the table has 256 bytes: byte n is the checksum of the one byte n.

.services exit,get,put
.data
table:
    .byte 0,7,14,9,28,27,18,21,56,63,54,49,36,35,42,45
    .byte 112,119,126,121,108,107,98,101,72,79,70,65,84,83,90,93
    .byte 224,231,238,233,252,251,242,245,216,223,214,209,196,195,202,205
    .byte 144,151,158,153,140,139,130,133,168,175,166,161,180,179,186,189
    .byte 199,192,201,206,219,220,213,210,255,248,241,246,227,228,237,234
    .byte 183,176,185,190,171,172,165,162,143,136,129,134,147,148,157,154
    .byte 39,32,41,46,59,60,53,50,31,24,17,22,3,4,13,10
    .byte 87,80,89,94,75,76,69,66,111,104,97,102,115,116,125,122
    .byte 137,142,135,128,149,146,155,156,177,182,191,184,173,170,163,164
    .byte 249,254,247,240,229,226,235,236,193,198,207,200,221,218,211,212
    .byte 105,110,103,96,117,114,123,124,81,86,95,88,77,74,67,68
    .byte 25,30,23,16,5,2,11,12,33,38,47,40,61,58,51,52
    .byte 78,73,64,71,82,85,92,91,118,113,120,127,106,109,100,99
    .byte 62,57,48,55,34,37,44,43,6,1,8,15,26,29,20,19
    .byte 174,169,160,167,178,181,188,187,150,145,152,159,138,141,132,131
    .byte 222,217,208,215,194,197,204,203,230,225,232,239,250,253,244,243
digits:
    .byte 48,49,50,51,52,53,54,55,56,57,65,66,67,68,69,70
.text

.function main,leaf,0,0,13000031
.fuel 13000031
    set 1000000,%o1     ! so many bytes are left
    mov 0,%o2           ! the checksum
    set table,%o3

! The address of the table is a cell of one value, so that the blocks after this one know it.
.block loop
.cell %o1,1,1000000,0
.cell %o2,0,255,0
.cell %o3,0x80000,0x80000,3
.fuel 26
.term %o1,13
    ta 1
    cmp %o0,-1
    be done
    nop

.block byte
.cell %o0,0,255,0
.cell %o1,1,1000000,0
.cell %o2,0,255,0
.cell %o3,0x80000,0x80000,3
.fuel 18
.term %o1,13
    xor %o0,%o2,%o2
    ldub [%o3+%o2],%o2
    deccc %o1
    bne loop
    nop

.block done
.cell %o2,0,255,0
.fuel 26
    set digits,%o3      ! behind the table: the 16 hexadecimal digits
    srl %o2,4,%o4       ! 0 to 255, shifted: 0 to 15
    ldub [%o3+%o4],%o0
    ta 2
    and %o2,15,%o4      ! 0 to 15 whatever %o2 is
    ldub [%o3+%o4],%o0
    ta 2
    mov 10,%o0
    ta 2
    mov 0,%o0
    ta 0
