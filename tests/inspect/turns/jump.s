! A jump to the address 0, of which the page tables know nothing.
.services exit
.function main,leaf,0,0,60
.fuel 60
    jmp %g0
    nop
