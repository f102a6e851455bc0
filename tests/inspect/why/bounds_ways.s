! V9: the slot of a branch reads by what each way knows of the index: neither lies in the data.
.services exit,get
.data
    .word 1,2
.text
.function main,leaf,0,0,60
.fuel 60
    ta 1
    cmp %o0,4
    sethi 512,%o1
    bg more
    ldub [%o1+%o0],%g1
.block less
.fuel 9
    mov 0,%o0
    ta 0
.block more
.fuel 9
    mov 0,%o0
    ta 0
