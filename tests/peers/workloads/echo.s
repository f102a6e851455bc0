! echo: each byte of the input comes out, at most 4,000,000
.services exit,get,put
.function main,framed,96,96,64000031
.fuel 64000031
 save %sp,-96,%sp
 set 4000000,%l0
.block loop
.cell %l0,1,4000000,0
.fuel 4
.term %l0,16
 ta 1
 cmp %o0,-1
 be done
 nop
.block body
.cell %o0,0,255,0
.cell %l0,1,4000000,0
.fuel -4
.term %l0,16
 ta 2
 deccc %l0
 bne loop
 nop
.block done
.fuel 4
 mov 0,%o0
 ta 0
