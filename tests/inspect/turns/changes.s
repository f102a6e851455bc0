! A byte that is stored, V and C at once, and %i7.
.services exit
.data
    .skip 8
.text
.function main,leaf,0,0,60
.fuel 60
    sethi 512,%g1           ! 00080000
    mov 65,%g2
    stb %g2,[%g1+5]
    sethi 2097152,%g3       ! 80000000
    or %g3,1,%g3
    addcc %g3,%g3,%g4       ! 1 00000002
    mov 3,%i7
    mov 0,%o0
    ta 0
