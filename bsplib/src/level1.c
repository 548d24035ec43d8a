/* The collective functions of BSPlib's level 1, over those of bsp.h. No C library has them. */
#include "bsp_level1.h"
#include "machine.h"

extern void *malloc(size_t size);
extern void free(void *place);
extern void *memmove(void *to, const void *from, size_t count);

/* Blocks of all ranks have to have a size that a whole number can say. */
static void must_be_size(int nbytes)
{
    if (nbytes < 0 || nbytes > 0x7fffffff / bsp_nprocs())
        bsp_stop("a collective function is called with a size that is negative or too large");
}

static void must_be_rank(int root)
{
    if (root < 0 || root >= bsp_nprocs())
        bsp_stop_with("a collective function is called with a root that is not a rank: ", root, "");
}

/* Registers `blocks` blocks of nbytes at `area` for the superstep that begins with the return of this function. */
static void open_area(void *area, int blocks, int nbytes)
{
    must_be_size(nbytes);
    bsp_push_reg(area, blocks * nbytes);
    bsp_sync();
}

static void close_area(void *area)
{
    bsp_pop_reg(area);
    bsp_sync();
}

/* The address of a block. */
static char *block(const void *blocks, int number, int nbytes)
{
    return (char *)blocks + number * nbytes;
}

/* Copies bytes. No bytes may have NULL for their address, which C leaves open in memmove. */
static void copy(void *to, const void *from, int nbytes)
{
    if (nbytes > 0)
        memmove(to, from, (size_t)nbytes);
}

/* Gives a block to each rank from `first` on, which is not above this one: from `src`, of blocks that stand `step` bytes apart. The block for
   this rank itself is copied, so that it is not counted as sent, and it is copied last: the area may lie over what others are given. */
static void give_all(int first, const void *src, int step, void *area, int number, int nbytes)
{
    int rank, own = bsp_pid(), end = bsp_nprocs();
    for (rank = first; rank < end; rank++)
        if (rank != own)
            bsp_put(rank, block(src, rank, step), area, number * nbytes, nbytes);
    copy(block(area, number, nbytes), block(src, own, step), nbytes);
}

void bsp_bcast(int root, const void *src, void *dst, int nbytes)
{
    must_be_rank(root);
    open_area(dst, 1, nbytes);
    if (bsp_pid() == root)
        give_all(0, src, 0, dst, 0, nbytes);
    close_area(dst);
}

void bsp_scatter(int root, const void *src, void *dst, int nbytes)
{
    must_be_rank(root);
    open_area(dst, 1, nbytes);
    if (bsp_pid() == root)
        give_all(0, src, nbytes, dst, 0, nbytes);
    close_area(dst);
}

void bsp_gather(int root, const void *src, void *dst, int nbytes)
{
    int is_root = bsp_pid() == root;
    /* Each rank has to register something, and dst may be no address in others than the root. */
    void *area = is_root ? dst : (void *)src;
    must_be_rank(root);
    open_area(area, is_root ? bsp_nprocs() : 0, nbytes);
    if (is_root)
        copy(block(dst, root, nbytes), src, nbytes);
    else
        bsp_put(root, src, area, bsp_pid() * nbytes, nbytes);
    close_area(area);
}

void bsp_total_exchange(const void *src, void *dst, int nbytes)
{
    open_area(dst, bsp_nprocs(), nbytes);
    give_all(0, src, nbytes, dst, bsp_pid(), nbytes);
    close_area(dst);
}

/* What op makes of the src of the ranks before `end`, in their order, where each rank gives its own to those from `first` on. */
static void reduce(bsp_operator op, const void *src, void *dst, int nbytes, int first, int end)
{
    int rank;
    char *operands;
    must_be_size(nbytes);
    operands = malloc((size_t)bsp_nprocs() * (size_t)nbytes + 1);
    if (operands == NULL)
        bsp_stop("a collective function has no memory for the operands of all ranks");
    open_area(operands, bsp_nprocs(), nbytes);
    give_all(first, src, 0, operands, bsp_pid(), nbytes);
    close_area(operands);
    copy(dst, operands, nbytes);
    for (rank = 1; rank < end; rank++) {
        /* The operator may write its result before it has read both operands, so these are apart from it. */
        char *left = block(operands, rank - 1, nbytes);
        int size = nbytes; /* which it may count down */
        copy(left, dst, nbytes);
        op(dst, left, block(operands, rank, nbytes), &size);
    }
    free(operands);
}

void bsp_fold(bsp_operator op, const void *src, void *dst, int nbytes)
{
    reduce(op, src, dst, nbytes, 0, bsp_nprocs());
}

void bsp_scan(bsp_operator op, const void *src, void *dst, int nbytes)
{
    reduce(op, src, dst, nbytes, bsp_pid(), bsp_pid() + 1);
}
