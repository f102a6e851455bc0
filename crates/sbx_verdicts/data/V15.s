! V15: the function's frame has 96 bytes, and it says that 88 bytes of stack are enough.
.services exit
.function main,framed,96,88,29
.fuel 29
    save %sp,-96,%sp
    mov 0,%o0
    ta 0
