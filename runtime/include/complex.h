#error "<complex.h> is not here: arithmetic of complex numbers isn't provided"
