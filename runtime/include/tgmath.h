#error "<tgmath.h> is not here: call the functions of math.h by their own names"
