! V16: after the function's last word control goes on to whatever stands there.
.services exit
.function main,leaf,0,0,5
.fuel 5
    mov 0,%o0
