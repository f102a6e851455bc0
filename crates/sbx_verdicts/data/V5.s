! V5: a call of an earlier function, or of oneself: calls go to functions of larger number, so that no call comes back to
! where it was made.
.services exit
.function main,framed,96,96,40
.fuel 40
    save %sp,-96,%sp
    call main
    nop
    mov 0,%o0
    ta 0
