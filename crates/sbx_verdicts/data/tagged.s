! Tagged arithmetic: words whose two low bits are a tag, as a Lisp machine has them. A number has the tag 0, so it stands times 4.
! For `trace` alone: `verify` refuses it by V4 at 00040014, since the branch goes to no block; and the last addition may trap (V11).

.services exit
.function main,leaf,0,0,40
    mov 4,%o1               ! the number 1
    mov 8,%o2               ! the number 2
    taddcctv %o1,%o2,%o0    ! 12, the number 3
    add %o1,1,%o1           ! something with the tag 1
    taddcc %o1,%o2,%o3      ! sets V and goes on
    bvs no_number
    nop
    ta 0
no_number:
    taddcctv %o1,%o2,%o0    ! traps 0A, and %o0 stays 12
    ta 0
