.function f,framed,96,65537,1
