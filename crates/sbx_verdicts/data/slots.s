! Delay slots and annulment. Each slot sets a bit of its own, so that the exit word tells which slots ran.
! For `trace` alone: `verify` refuses it by V4 at 00040004, since the branch goes to a label and not to a block.

.services exit
.function main,leaf,0,0,40
    clr %o0
    ba one              ! always taken: the slot runs
    or %o0,1,%o0
one:
    ba,a two            ! always taken, annulling: the slot is annulled
    or %o0,2,%o0
two:
    cmp %g0,0           ! equal: Z is set
    bne,a three         ! not taken, annulling: the slot is annulled
    or %o0,4,%o0
three:
    be,a four           ! taken, annulling: the slot runs
    or %o0,8,%o0
four:
    bne five            ! not taken: the slot runs
    or %o0,16,%o0
five:
    bn,a six            ! never taken, annulling: the slot is annulled
    or %o0,32,%o0
six:
    call last           ! a call has a slot too
    or %o0,64,%o0
last:
    ta 0
