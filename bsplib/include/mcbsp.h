/* MulticoreBSP's older name for bsp.h. */
#include "bsp.h"
