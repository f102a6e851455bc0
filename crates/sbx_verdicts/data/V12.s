! V12: the program asks for a byte of the input, and doesn't declare the service.
.services exit
.function main,leaf,0,0,9
.fuel 9
    ta 1
    mov 0,%o0
    ta 0
