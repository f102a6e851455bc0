! Puts out the first bytes of its input, up to 64, sorted: a table in the data that is read and written.
!
! %l0 is how many bytes there are, %l1 and %l2 are places in the table, %l3 is its address. They are locals, so the
! function is framed: a leaf may write outs and globals alone.

.services exit,get,put
.data
bytes:
    .skip 64
.text

.function main,framed,96,96,47016
.fuel 47016
    save %sp,-96,%sp
    mov 0,%l0
    set bytes,%l3

.block read
.cell %l0,0,63,0
.cell %l3,0x80000,0x80000,3
.fuel 46988
.term %l0,-13
    ta 1
    cmp %o0,-1
    be sort
    nop
.block keep
.cell %o0,0,255,0
.cell %l0,0,63,0
.cell %l3,0x80000,0x80000,3
.fuel 46980
.term %l0,-13
    stb %o0,[%l3+%l0]
    inc %l0
    cmp %l0,63
    ble read
    nop

! Each place from the first on gets the least of the bytes from there to the end.
.block sort
.cell %l0,0,64,0
.cell %l3,0x80000,0x80000,3
.fuel 46156
    mov 0,%l1

.block places
.cell %l0,0,64,0
.cell %l1,0,64,0
.cell %l3,0x80000,0x80000,3
.fuel 46155
.term %l1,-710
    cmp %l1,%l0
    bge show
    nop
.block first
.cell %l0,1,64,0
.cell %l1,0,63,0
.cell %l3,0x80000,0x80000,3
.fuel 46152
.term %l1,-710
    mov %l1,%l2

! %l2 goes from %l1 to the end; where its byte is less than that at %l1 they change places.
.block others
.cell %l0,1,64,0
.cell %l1,0,63,0
.cell %l2,0,63,0
.cell %l3,0x80000,0x80000,3
.fuel 46151
.term %l1,-710
.term %l2,-11
    ldub [%l3+%l1],%o0
    ldub [%l3+%l2],%o1
    cmp %o1,%o0
    bge,a next
    inc %l2             ! in the slot, and annulled where the branch isn't taken
.block exchange
.cell %o0,0,255,0
.cell %o1,0,255,0
.cell %l0,1,64,0
.cell %l1,0,63,0
.cell %l2,0,63,0
.cell %l3,0x80000,0x80000,3
.fuel 46146
.term %l1,-710
.term %l2,-11
    stb %o1,[%l3+%l1]
    stb %o0,[%l3+%l2]
    inc %l2
.block next
.cell %l0,1,64,0
.cell %l1,0,63,0
.cell %l2,1,64,0
.cell %l3,0x80000,0x80000,3
.fuel 46154
.term %l1,-710
.term %l2,-11
    cmp %l2,%l0
    bl others
    nop
.block after
.cell %l0,1,64,0
.cell %l1,0,63,0
.cell %l3,0x80000,0x80000,3
.fuel 45447
.term %l1,-710
    ba places
    inc %l1

.block show
.cell %l0,0,64,0
.cell %l3,0x80000,0x80000,3
.fuel 712
    mov 0,%l1
.block letters
.cell %l0,0,64,0
.cell %l1,0,64,0
.cell %l3,0x80000,0x80000,3
.fuel 711
.term %l1,-11
    cmp %l1,%l0
    bge done
    nop
.block letter
.cell %l0,1,64,0
.cell %l1,0,63,0
.cell %l3,0x80000,0x80000,3
.fuel 708
.term %l1,-11
    ldub [%l3+%l1],%o0
    ta 2
    ba letters
    inc %l1

.block done
.fuel 4
    mov 0,%o0
    ta 0
