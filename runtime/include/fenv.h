#error "<fenv.h> is not here: doubles are always rounded to nearest, and nothing is flagged"
