! V13: of three cells one is kept; one holds less than it may, and one was never written.
.services exit,get
.function main,leaf,0,0,60
.fuel 60
    ta 1
    mov 6,%g1
.block last
.cell %g1,0,9,1
.cell %o0,0,255,0
.cell %o1,1,10,0
.fuel 20
    mov 0,%o0
    ta 0
