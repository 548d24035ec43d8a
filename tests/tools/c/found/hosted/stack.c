/* A machine with a stack whose instructions jump by labels as values, run on each process with other numbers. */
#include <stdio.h>
#include <stdlib.h>
#include <stddef.h>
#include <bsp.h>

enum op { PUSH, ADD, MUL, SUB, DUP, SWAP_, JNZ, PID, PRINT, HALT };
struct program { size_t length; int code[]; };

static int run(const struct program *program, FILE *out)
{
    static const void *const labels[] = {&&push, &&add, &&mul, &&sub, &&dup, &&swap, &&jnz, &&pid, &&print, &&halt};
    int stack[32], *top = stack, steps = 0, t;
    const int *pc = program->code;
#define NEXT do { steps++; goto *labels[*pc++]; } while (0)
    NEXT;
push: *++top = *pc++; NEXT;
add: --top; *top += top[1]; NEXT;
mul: --top; *top *= top[1]; NEXT;
sub: --top; *top -= top[1]; NEXT;
dup: top++; *top = top[-1]; NEXT;
swap: t = *top; *top = top[-1]; top[-1] = t; NEXT;
jnz: t = *pc++; if (*top--) pc += t; NEXT;
pid: *++top = bsp_pid(); NEXT;
print: fprintf(out, "%d\n", *top--); NEXT;
halt:
    return steps;
}

int main(void)
{
    static const int countdown[] = {PID, PUSH, 3, ADD, PUSH, 2, SWAP_, MUL, DUP, PRINT, PUSH, 1, SUB, DUP, JNZ, -8, HALT};
    struct program *it = malloc(offsetof(struct program, code) + sizeof countdown);
    int highest = ({ int m = 0; for (size_t i = 0; i < sizeof countdown / sizeof *countdown; i++) m = countdown[i] > m ? countdown[i] : m; m; });
    auto int twice(int x);
    int twice(int x) { return 2 * x + (it != NULL ? 0 : highest); }

    bsp_begin(bsp_nprocs());
    it->length = sizeof countdown / sizeof *countdown;
    __builtin_memcpy(it->code, countdown, sizeof countdown);
    int steps = run(it, stdout);
    printf("%d: %d steps, highest %d, twice %d, %d\n", bsp_pid(), steps, highest, twice(steps), bsp_pid() ?: -1);
    switch (steps) {
    case 0 ... 9: puts("few"); break;
    case 10 ... 99: puts("some"); break;
    default: puts("many");
    }
    bsp_end();
    free(it);
    return 0;
}
