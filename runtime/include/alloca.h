#ifndef GEYSERPAN_ALLOCA_H
#define GEYSERPAN_ALLOCA_H

#define alloca(size) __builtin_alloca(size)

#endif
