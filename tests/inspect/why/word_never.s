! V2: the branch that never branches.
.services exit
.function main,leaf,0,0,40
.fuel 40
    bn .+8
    mov 0,%o0
    ta 0
