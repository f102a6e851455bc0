! V9: a word among the 64 bytes that the window handlers use.
.services exit
.function main,framed,96,96,90
.fuel 90
    save %sp,-96,%sp
    st %g0,[%fp-40]
    mov 0,%o0
    ta 0
