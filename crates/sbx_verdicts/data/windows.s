! Window overflow and underflow. A frame after the other is entered, more than a machine of 8 windows holds, and left again.
! For `trace` alone: `verify` refuses it by V3 at 00040000. A function has one SAVE, its first word, and RESTORE in the slot of `ret`.

.services exit
.function main,framed,96,4032,1000
    mov 11,%l0              ! a local of the first frame, in window 0
    save %sp,-96,%sp        ! to window 7
    save %sp,-96,%sp
    save %sp,-96,%sp
    save %sp,-96,%sp
    save %sp,-96,%sp
    save %sp,-96,%sp        ! to window 2
    save %sp,-96,%sp        ! window 1 is marked: trap 05
    restore                 ! back to window 2
    restore
    restore
    restore
    restore
    restore                 ! back to window 7
    restore                 ! window 0 is marked now: trap 06
    mov %l0,%o0             ! 11 again
    ta 0
