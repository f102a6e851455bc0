! V2: a trap on a condition.
.services exit
.function main,leaf,0,0,40
.fuel 40
    te 1
    mov 0,%o0
    ta 0
