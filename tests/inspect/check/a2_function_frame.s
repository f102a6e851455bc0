.function f,framed,4097,96,1
