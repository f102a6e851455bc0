! V15: function 0 says that it takes more than one page has, which is 4096 bytes without 64.
.services exit
.function main,framed,96,4040,29
.fuel 29
    save %sp,-96,%sp
    mov 0,%o0
    ta 0
