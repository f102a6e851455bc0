#error "<threads.h> is not here: a program of a sandbox is one thread"
