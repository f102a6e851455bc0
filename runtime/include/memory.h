/* An old name. */
#include <string.h>
