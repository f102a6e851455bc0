! V6: Y, which nothing has written.
.services exit
.function main,leaf,0,0,40
.fuel 40
    rd %y,%o0
    ta 0
