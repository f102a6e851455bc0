.function f,leaf,0,0,1
sethi 4194304,%g1
