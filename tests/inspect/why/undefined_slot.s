! V6: a word of the frame that nothing has written.
.services exit
.function main,framed,96,96,90
.fuel 90
    save %sp,-96,%sp
    ld [%sp+64],%o0
    ta 0
