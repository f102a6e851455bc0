! V3: a frame that is no multiple of 8.
.services exit
.function main,framed,100,104,90
.fuel 90
    save %sp,-100,%sp
    mov 0,%o0
    ta 0
