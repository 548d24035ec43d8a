/* Types of C that the file wants. */
#include <stddef.h>
