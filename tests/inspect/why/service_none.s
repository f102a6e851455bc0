! V12: a service that there is none.
.services exit
.function main,leaf,0,0,40
.fuel 40
    mov 0,%o0
    ta 7
    ta 0
