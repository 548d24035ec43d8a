/* In the place of the host's: a node's C library has no features to ask for. */
#define __NO_CTYPE 1
