/* Records in the order of the network, with unions, fields of bits and bytes that are swapped. */
#include <arpa/inet.h>
#include <byteswap.h>
#include <endian.h>
#include <inttypes.h>
#include <stdio.h>
#include <string.h>
#include <bsp.h>

struct header {
    unsigned int version : 4, length : 4;
    signed int delta : 6;
    unsigned : 0;
    uint16_t port;
    uint32_t address;
} __attribute__((packed));

typedef union {
    float f;
    uint32_t u;
    struct { uint32_t fraction : 23, exponent : 8, sign : 1; } parts;
    unsigned char bytes[4];
} Float;

int main(int argc, char *argv[])
{
    bsp_begin(bsp_nprocs());
    int s = bsp_pid(), p = bsp_nprocs(), tag = sizeof(uint16_t);
    uint16_t mark;
    struct header out = {4, 5, -3 - s, htons(8000 + s), htonl(0x0a000001 + s)}, in;
    Float x = {.f = -0.15625f * (s + 1)};
    bsp_set_tagsize(&tag);
    bsp_sync();
    mark = htons((uint16_t)(s * 257));
    bsp_send((s + 1) % p, &mark, &out, sizeof out);
    bsp_sync();
    int length;
    bsp_get_tag(&length, &mark);
    bsp_move(&in, sizeof in);
    printf("%d: tag %#06x, %d bytes: v%u, %u words, %d, port %d, %s\n", s, ntohs(mark), length, in.version, in.length, in.delta, ntohs(in.port),
        inet_ntoa((struct in_addr){in.address}));
    printf("%g = %" PRIx32 ": %u %d %#x, first byte %02hhx\n", x.f, x.u, x.parts.sign, x.parts.exponent - 127, x.parts.fraction, x.bytes[0]);
    uint64_t big = htobe64(UINT64_C(0x0102030405060708));
    printf("%02x %" PRIx64 " %x %" PRIx16 " %d\n", ((unsigned char *)&big)[0], bswap_64(big), bswap_32(0xdeadbeef), le16toh(0x1234), BYTE_ORDER == LITTLE_ENDIAN);
    bsp_end();
    return 0;
}
