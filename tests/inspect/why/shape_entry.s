! V3: a framed function that begins with another word than SAVE.
.services exit
.function main,framed,96,96,40
.fuel 40
    mov 0,%o0
    ta 0
