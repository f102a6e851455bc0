#error "<sys/wait.h> is not here: a program of a sandbox is one process"
