! A callee whose fuel is a turn too little where it returns.
.services exit
.function main,framed,96,96,60
.fuel 60
    save %sp,-96,%sp
    call less
    nop
    mov 0,%o0
    ta 0
.function less,leaf,0,0,2
.fuel 1
    retl
    nop
