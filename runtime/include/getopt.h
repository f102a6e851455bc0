/* (getopt_long is not here: what a program is called with is its name alone) */
#ifndef GEYSERPAN_GETOPT_H
#define GEYSERPAN_GETOPT_H

#include <unistd.h>

#endif
