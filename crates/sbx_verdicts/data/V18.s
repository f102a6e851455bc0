! V18: the entry function has nobody to return to.
.services exit
.function main,leaf,0,0,5
.fuel 5
    retl
    nop
