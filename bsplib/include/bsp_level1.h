/* The collective functions that BSPlib calls its level 1: each is made of the functions of bsp.h.
 *
 * Every rank calls the same one, with the same root and nbytes. A collective ends two supersteps. What was asked for before
 * it comes about at the end of the first, as at any bsp_sync, and messages that nobody took are gone. The result is there
 * when the function returns. With p ranks and n for nbytes, h of the second superstep is
 *
 *     bsp_bcast           (p - 1) n      the root sends n bytes to each other rank
 *     bsp_scatter         (p - 1) n
 *     bsp_gather          (p - 1) n      the root receives n bytes from each other rank
 *     bsp_total_exchange  (p - 1) n
 *     bsp_fold            (p - 1) n      every rank receives every operand, and folds by itself
 *     bsp_scan            (p - 1) n      rank 0 sends to all that follow, and the last rank receives from all before it
 *
 * and that of the first is what was asked for before. What a rank has for itself is copied, and not sent.
 *
 * src and dst may be the same, or overlap. bsp_fold and bsp_scan take p n bytes from malloc for the time of the call.
 */
#ifndef BSP_LEVEL1_H
#define BSP_LEVEL1_H

#pragma GCC system_header

#include "bsp.h"

#ifdef __cplusplus
extern "C" {
#endif

/* An operator writes what it makes of *left and *right, each of *nbytes, to *result. It has to be associative. What it writes to *left,
   *right and *nbytes, nobody reads. */
typedef void (*bsp_operator)(void *result, void *left, void *right, int *nbytes);

/* nbytes at src of the root come to dst of every rank. */
void bsp_bcast(int root, const void *src, void *dst, int nbytes);

/* Block r at src of the root comes to dst of rank r. src is looked at in the root alone. */
void bsp_scatter(int root, const void *src, void *dst, int nbytes);

/* nbytes at src of rank r come to block r at dst of the root. dst is looked at in the root alone. */
void bsp_gather(int root, const void *src, void *dst, int nbytes);

/* Block t at src of rank s comes to block s at dst of rank t. */
void bsp_total_exchange(const void *src, void *dst, int nbytes);

/* dst of every rank gets what op makes of the src of all ranks, in the order of their ranks. */
void bsp_fold(bsp_operator op, const void *src, void *dst, int nbytes);

/* dst of rank r gets what op makes of the src of ranks 0 to r. */
void bsp_scan(bsp_operator op, const void *src, void *dst, int nbytes);

#ifdef __cplusplus
}
#endif

#endif
