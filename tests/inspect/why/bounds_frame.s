! V9: a word behind the frame.
.services exit
.function main,framed,96,96,90
.fuel 90
    save %sp,-96,%sp
    st %g0,[%sp+96]
    mov 0,%o0
    ta 0
