! An access that the page tables forbid: a store into the program's own code.
! For `trace` alone: `verify` refuses it by V9 at 00040008, since the store's address lies in no data byte of the image.

.services exit
.function main,leaf,0,0,20
    set main,%g1            ! 00040000: sethi, and an or that adds 0
    st %g0,[%g1]
    mov 0,%o0
    ta 0
