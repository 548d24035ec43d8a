/* A checksum: the CRC-32 of 65,536 bytes, by a table of the remainders of all bytes. */
#include "rounds.h"

#define LENGTH 65536

static unsigned char bytes[LENGTH];
static unsigned remainders[256];

static unsigned crc(unsigned crc)
{
    crc = ~crc;
    for (int i = 0; i < LENGTH; i++)
        crc = remainders[(crc ^ bytes[i]) & 255] ^ crc >> 8;
    return ~crc;
}

int main(void)
{
    int count = rounds(230);
    unsigned state = 1, sum = 0;

    for (unsigned i = 0; i < 256; i++) {
        unsigned rest = i;
        for (int bit = 0; bit < 8; bit++)
            rest = rest & 1 ? rest >> 1 ^ 0xEDB88320 : rest >> 1;
        remainders[i] = rest;
    }
    for (int i = 0; i < LENGTH; i++)
        bytes[i] = (unsigned char)next_number(&state);
    for (int round = 0; round < count; round++)
        sum = crc(sum);
    printf("the CRC-32 of %d bytes, %d times: %08x\n", LENGTH, count, sum);
    return 0;
}
