/* What bsdiff ends with where something fails. */
#include <stdlib.h>
#define err(status, ...) exit(status)
#define errx(status, ...) exit(status)
