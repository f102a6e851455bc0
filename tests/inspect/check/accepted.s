.services exit
.function main,leaf,0,0,4
.fuel 4
 mov 0,%o0
 ta 0
