! A stack pointer that is no multiple of 8 where a window is to be stored. The overflow handler runs with ET=0, so what it can't store
! ends the run in error mode. On 4 windows: the third SAVE is the first that finds the marked window.
.services exit
.function main,leaf,0,0,60
.fuel 60
    add %sp,4,%sp
    save %sp,-96,%sp        ! to window 3
    save %sp,-96,%sp
    save %sp,-96,%sp        ! window 1 is marked: trap 05
