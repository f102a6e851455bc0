! Without a .fuel line a block's fuel is 0.
.services exit
.function main,leaf,0,0,4
    mov 0,%o0
    ta 0
