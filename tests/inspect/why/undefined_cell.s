! V6: two registers that a block reads and lists no cells for.
.services exit
.function main,leaf,0,0,40
.fuel 40
    ba end
    mov 1,%o1
.block end
.fuel 9
    add %o1,%o2,%o0
    ta 0
