! V3: a branch whose slot stands in the next block.
.services exit
.function main,leaf,0,0,40
.fuel 40
    ba end
.block end
.fuel 9
    mov 0,%o0
    ta 0
