#error "<sys/time.h> is not here: a program of a sandbox has no clock; pass what it needs in its input"
