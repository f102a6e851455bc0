! V9: a frame that has the window handlers' 64 bytes alone.
.services exit
.function main,framed,64,64,90
.fuel 90
    save %sp,-64,%sp
    st %g0,[%sp+64]
    mov 0,%o0
    ta 0
