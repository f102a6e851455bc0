#error "<stdatomic.h> is not here: a program of a sandbox is one thread: ordinary variables do"
