! V8: a word of the frame at no multiple of 4.
.services exit
.function main,framed,96,96,90
.fuel 90
    save %sp,-96,%sp
    st %g0,[%sp+66]
    mov 0,%o0
    ta 0
