! The byte that is read has no form, so the loop's fuel counts it at its upper end: 255 on the way from the first block.
.services exit,get
.function main,leaf,0,0,600
.fuel 100
    ta 1
.block loop
.cell %o0,-1,255,0
.fuel 7
.term %o0,2
    tst %o0
    ble done
    nop
.block less
.cell %o0,1,255,0
.fuel 4
.term %o0,2
    ba loop
    dec %o0
.block done
.fuel 4
    mov 0,%o0
    ta 0
