! V3: a leaf that declares a frame.
.services exit
.function main,leaf,96,96,40
.fuel 40
    mov 0,%o0
    ta 0
