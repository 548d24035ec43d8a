/* BSPlib on the host, for the outputs that the programs of this folder have to have: each rank is a process. bsp.c has how. */
#ifndef HOST_BSP_H
#define HOST_BSP_H

#include <stddef.h>

#ifdef __cplusplus
extern "C" {
#endif

void bsp_init(void (*spmd)(void), int argc, char **argv);
void bsp_begin(int most);
void bsp_end(void);
void bsp_abort(const char *format, ...);
int bsp_nprocs(void);
int bsp_pid(void);
double bsp_time(void);
void bsp_sync(void);
void bsp_push_reg(const void *ident, int size);
void bsp_pop_reg(const void *ident);
void bsp_put(int pid, const void *src, void *dst, int offset, int nbytes);
void bsp_get(int pid, const void *src, int offset, void *dst, int nbytes);
void bsp_hpput(int pid, const void *src, void *dst, int offset, int nbytes);
void bsp_hpget(int pid, const void *src, int offset, void *dst, int nbytes);
void bsp_set_tagsize(int *size);
void bsp_send(int pid, const void *tag, const void *payload, int nbytes);
void bsp_qsize(int *count, int *bytes);
void bsp_get_tag(int *status, void *tag);
void bsp_move(void *payload, int nbytes);
int bsp_hpmove(void **tag, void **payload);

#ifdef __cplusplus
}
#endif

#endif
