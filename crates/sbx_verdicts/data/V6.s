! V6: %o1 is read where nothing has been written to it.
.services exit
.function main,leaf,0,0,5
.fuel 5
    add %o1,1,%o0
    ta 0
