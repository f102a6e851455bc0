#error "<uchar.h> is not here: only characters of one byte are provided"
