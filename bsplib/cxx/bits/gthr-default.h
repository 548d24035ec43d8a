/* In the place of the host's: a node has one thread. */
#include <bits/gthr-single.h>
