/* An old name. */
#include <stdlib.h>
