/* Makes the calls of bsp.h and bsp_level1.h that its input says, and tells each answer, and the memory after each superstep. The input is
   written by tests/tools/c/scripts: lines of an operation, the rank that makes it, and numbers. */
#include <bsp.h>
#include <bsp_level1.h>
#include <stdio.h>
#include <string.h>

/* The memory that calls name by places from 0 on; -1 is NULL, and -2 lies outside of all memory. */
enum { MEMORY = 160, MOST_KEPT = 64, MOST_NUMBERS = 6 };
static unsigned char memory[MEMORY];

/* What bsp_hpmove gave in this superstep. */
static struct {
    unsigned char *tag, *payload;
    int tag_size, size;
} kept[MOST_KEPT];
static int kept_count = 0;
/* The sizes of tags in the queue, in this superstep and in the next one. */
static int received_tag = 0, tag_size = 0, next_tag = 0;

static int pid, next_byte;
static int numbers[MOST_NUMBERS];

static unsigned char *at(int place)
{
    if (place < 0)
        return place == -1 ? (unsigned char *)0 : (unsigned char *)-16;
    return memory + place;
}

static int is_blank(int byte)
{
    return byte == ' ' || byte == '\n';
}

static int read_number(void)
{
    int number = 0, is_negative;
    while (is_blank(next_byte))
        next_byte = getchar();
    is_negative = next_byte == '-';
    if (is_negative)
        next_byte = getchar();
    for (; next_byte >= '0' && next_byte <= '9'; next_byte = getchar())
        number = number * 10 + (next_byte - '0');
    return is_negative ? -number : number;
}

static void tell_bytes(const unsigned char *bytes, int count)
{
    static char line[2 * MEMORY + 2];
    int i;
    for (i = 0; i < count; i++) {
        line[2 * i] = "0123456789abcdef"[bytes[i] >> 4];
        line[2 * i + 1] = "0123456789abcdef"[bytes[i] & 15];
    }
    line[2 * count] = '\n';
    line[2 * count + 1] = '\0';
    fputs(line, stdout);
}

static void end_superstep(void)
{
    kept_count = 0;
    received_tag = tag_size;
    tag_size = next_tag;
    tell_bytes(memory, MEMORY);
}

/* What bsp_hpmove gave has to stay as it was. */
static void tell_kept(void)
{
    int i, j, sum = 0;
    for (i = 0; i < kept_count; i++) {
        for (j = 0; j < kept[i].tag_size; j++)
            sum = (sum * 31 + kept[i].tag[j]) % 1000003;
        for (j = 0; j < kept[i].size; j++)
            sum = (sum * 31 + kept[i].payload[j]) % 1000003;
    }
    if (kept_count > 0)
        printf("kept %d\n", sum);
}

/* Operators: sums of bytes, which count down what is left, products of matrices of two by two bytes, and what comes from the right. */
static void plus(void *result, void *left, void *right, int *nbytes)
{
    while (--*nbytes >= 0)
        ((unsigned char *)result)[*nbytes] = (unsigned char)(((unsigned char *)left)[*nbytes] + ((unsigned char *)right)[*nbytes]);
}

static void product(void *result, void *left, void *right, int *nbytes)
{
    unsigned char *to = (unsigned char *)result, *a = (unsigned char *)left, *b = (unsigned char *)right;
    int i, row, column;
    for (i = 0; i < *nbytes; i += 4)
        for (row = 0; row < 2; row++)
            for (column = 0; column < 2; column++)
                to[i + 2 * row + column] = (unsigned char)(a[i + 2 * row] * b[i + column] + a[i + 2 * row + 1] * b[i + 2 + column]);
}

static void last(void *result, void *left, void *right, int *nbytes)
{
    (void)left;
    memmove(result, right, (size_t)*nbytes);
}

static bsp_operator const operators[] = {plus, product, last};

static void messages(int operation)
{
    int status = 77, count = 77, bytes = 77;
    void *tag = NULL, *payload = NULL;
    switch (operation) {
    case 'q':
        bsp_qsize(&count, &bytes);
        printf("queue %d %d\n", count, bytes);
        break;
    case 'Q':
        bsp_qsize(numbers[0] ? &count : (int *)0, numbers[0] ? (int *)0 : &bytes);
        printf("queue %d %d\n", count, bytes);
        break;
    case 'a':
        bsp_get_tag(&status, at(numbers[0]));
        printf("status %d\n", status);
        break;
    case 'm':
        bsp_move(at(numbers[0]), numbers[1]);
        break;
    case 'h':
        status = bsp_hpmove(&tag, &payload);
        printf("moved %d\n", status);
        if (status >= 0 && kept_count < MOST_KEPT) {
            kept[kept_count].tag = (unsigned char *)tag;
            kept[kept_count].payload = (unsigned char *)payload;
            kept[kept_count].tag_size = received_tag;
            kept[kept_count++].size = status;
            tell_bytes((unsigned char *)tag, received_tag);
            tell_bytes((unsigned char *)payload, status);
        }
        break;
    default:
        status = numbers[0];
        bsp_set_tagsize(&status);
        next_tag = numbers[0];
        printf("tag size %d\n", status);
    }
}

static void collective(int operation)
{
    tell_kept();
    switch (operation) {
    case 'B': bsp_bcast(numbers[0], at(numbers[1]), at(numbers[2]), numbers[3]); break;
    case 'C': bsp_scatter(numbers[0], at(numbers[1]), at(numbers[2]), numbers[3]); break;
    case 'E': bsp_gather(numbers[0], at(numbers[1]), at(numbers[2]), numbers[3]); break;
    case 'X': bsp_total_exchange(at(numbers[0]), at(numbers[1]), numbers[2]); break;
    case 'F': bsp_fold(operators[numbers[0]], at(numbers[1]), at(numbers[2]), numbers[3]); break;
    default: bsp_scan(operators[numbers[0]], at(numbers[1]), at(numbers[2]), numbers[3]);
    }
    received_tag = tag_size = next_tag;
    kept_count = 0;
    tell_bytes(memory, MEMORY);
}

static void make(int operation)
{
    int i;
    switch (operation) {
    case 'n': printf("script %d, %d of %d\n", numbers[0], bsp_pid(), bsp_nprocs()); break;
    case 'y':
        tell_kept();
        bsp_sync();
        end_superstep();
        break;
    case 'w':
        for (i = 0; i < numbers[1]; i++)
            memory[numbers[0] + i] = (unsigned char)(numbers[2] + i * numbers[3]);
        break;
    case 'r': bsp_push_reg(at(numbers[0]), numbers[1]); break;
    case 'R': bsp_pushregister(at(numbers[0]), numbers[1]); break;
    case 'd': bsp_pop_reg(at(numbers[0])); break;
    case 'D': bsp_popregister(at(numbers[0])); break;
    case 'p': bsp_put(numbers[0], at(numbers[1]), at(numbers[2]), numbers[3], numbers[4]); break;
    case 'P': bsp_hpput(numbers[0], at(numbers[1]), at(numbers[2]), numbers[3], numbers[4]); break;
    case 'g': bsp_get(numbers[0], at(numbers[1]), numbers[2], at(numbers[3]), numbers[4]); break;
    case 'G': bsp_hpget(numbers[0], at(numbers[1]), numbers[2], at(numbers[3]), numbers[4]); break;
    case 's': bsp_send(numbers[0], at(numbers[1]), at(numbers[2]), numbers[3]); break;
    case 'S': bsp_hpsend(numbers[0], at(numbers[1]), at(numbers[2]), numbers[3]); break;
    case 'q':
    case 'Q':
    case 'a':
    case 'm':
    case 'h':
    case 't': messages(operation); break;
    default: collective(operation);
    }
}

int main(void)
{
    int operation, rank, count, i;
    bsp_begin(bsp_nprocs());
    pid = bsp_pid();
    next_byte = getchar();
    for (;;) {
        while (is_blank(next_byte))
            next_byte = getchar();
        if (next_byte < 0)
            break;
        operation = next_byte;
        next_byte = getchar();
        rank = read_number();
        for (count = 0; next_byte == ' ' && count < MOST_NUMBERS; count++)
            numbers[count] = read_number();
        for (i = count; i < MOST_NUMBERS; i++)
            numbers[i] = 0;
        if (rank == pid || rank < 0)
            make(operation);
    }
    bsp_end();
    return 0;
}
