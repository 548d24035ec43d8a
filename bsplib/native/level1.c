/* The collective functions of BSPlib's level 1, the same as on nodes: they use only bsp.h. */
#define BSP_MACHINE_H /* native.h is in the place of the machine's calls */
#include "native.h"
#include "../src/level1.c"
