#include "mcbsp.h"
#include <stdio.h>
#include <stdlib.h>
#include <string.h>
#include <assert.h>

/* Messages as programs for MulticoreBSP have them: counts and sizes are size_t and unsigned, and some are sent by bsp_hpsend. */
int main(void)
{
    bsp_begin(bsp_nprocs());
    const unsigned int P = bsp_nprocs(), s = bsp_pid();
    size_t tagsize = sizeof(unsigned int);
    bsp_set_tagsize(&tagsize);
    assert(tagsize == 0);
    bsp_sync();
    double payload[4];
    unsigned int right = 0, *all = calloc(P, sizeof(unsigned int));
    bsp_push_reg(all, P * sizeof(unsigned int));
    bsp_sync();
    for (unsigned int k = 0; k < P; ++k) {
        for (size_t i = 0; i < 4; ++i)
            payload[i] = (double)(s * 10 + k) + (double)i / 8.0;
        unsigned int tag = s * P + k;
        if ((s + k) % 2 == 0)
            bsp_hpsend(k, &tag, payload, (k % 4 + 1) * sizeof(double));
        else
            bsp_send(k, &tag, payload, (k % 4 + 1) * sizeof(double));
        bsp_sync(); /* a superstep each, so that hpsend's memory may be used again */
        unsigned int packets;
        size_t packed;
        bsp_qsize(&packets, &packed);
        if (s == k) {
            assert(packets == P);
            double sum = 0.0;
            size_t tags = 0;
            for (unsigned int m = 0; m < packets; ++m) {
                size_t status;
                unsigned int t;
                bsp_get_tag(&status, &t);
                assert(status == (k % 4 + 1) * sizeof(double));
                tags += t;
                double in[4];
                bsp_move(in, status);
                for (size_t i = 0; i < status / sizeof(double); ++i)
                    sum += in[i];
            }
            size_t none;
            unsigned int t;
            bsp_get_tag(&none, &t);
            const unsigned int count = k % 4 + 1;
            const double wanted = count * (5.0 * P * (P - 1) + P * k) + P * (count * (count - 1) / 2) / 8.0;
            right = none == (size_t)-1 && tags == P * P * (P - 1) / 2 + P * k && sum == wanted;
        }
    }
    bsp_put(0, &right, all, s * sizeof(unsigned int), sizeof(unsigned int));
    bsp_sync();
    if (s == 0) {
        for (unsigned int k = 1; k < P; ++k)
            all[0] += all[k];
        printf("%s\n", all[0] == P ? "all messages are right" : "some are wrong");
    }
    bsp_end();
    return 0;
}
