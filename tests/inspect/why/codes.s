! The carry is read where no instruction has set the condition codes.
.services exit
.function main,leaf,0,0,60
.fuel 60
    mov 1,%o1
    addx %o1,1,%o0
    mov 0,%o0
    ta 0
