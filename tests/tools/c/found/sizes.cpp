// Counts and sizes of each type that bsp.h takes, in each standard of C++.
#include <bsp.h>
#include <bsp_level1.h>
#include <mcbsp.hpp>
#include <stddef.h>
#include <stdio.h>

int main()
{
    unsigned messages = 7, bytes = 7, status = 7;
    unsigned long more = 9;
    long left = 9;
    size_t tag = 4;
    int number = 0, other = 0;

    bsp_begin(bsp_nprocs());
    bsp_set_tagsize(&tag);
    bsp_sync();
    bsp_send(bsp_pid(), &number, &number, 3);
    bsp_sync();
    bsp_qsize(&messages, &bytes);
    bsp_qsize(&more, NULL);
    bsp_qsize(NULL, &left);
    bsp_qsize(&number, &tag);
    bsp_qsize(&tag, &number);
    bsp_qsize(&number, &other);
    bsp_qsize(&number, NULL);
    bsp_qsize(NULL, &number);
    bsp_qsize(NULL, NULL);
    bsp_qsize(0, &tag);
#if __cplusplus >= 201103L
    bsp_qsize(nullptr, &left);
    bsp_qsize(&number, nullptr);
#endif
    bsp_get_tag(&status, &other);
    printf("%u %u %lu %ld %u %d %u\n", messages, bytes, more, left, (unsigned)tag, number, status);
    bsp_end();
    return 0;
}
