! V3: a frame that is a multiple of 8, and smaller than what the window handlers store.
.services exit
.function main,framed,56,96,90
.fuel 90
    save %sp,-56,%sp
    mov 0,%o0
    ta 0
