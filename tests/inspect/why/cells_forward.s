! V13: a number grows by 2 in a block, and the next one begins with no more than this one.
.services exit
.function main,leaf,0,0,60
.fuel 60
    mov 8,%o1
.block first
.cell %o1,0,10,0
.fuel 20
    inc 2,%o1
.block next
.cell %o1,0,10,0
.fuel 10
    mov 0,%o0
    ta 0
