/* What the file wants to know of the machine: registers have 32 bits. */
#define UNITS_PER_WORD 4
#define MIN_UNITS_PER_WORD 4
#define BITS_PER_UNIT 8
