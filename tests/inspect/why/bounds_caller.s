! V9: %fp names the caller's frame, whose words are not the function's.
.services exit
.function main,framed,96,96,90
.fuel 90
    save %sp,-96,%sp
    st %g0,[%fp+64]
    mov 0,%o0
    ta 0
