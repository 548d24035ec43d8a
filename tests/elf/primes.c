/* Each rank writes the primes below 100 that leave its rank as the remainder by the number of nodes, a line each. */

static long call(long number, long a, long b) {
    register long a0 asm("a0") = a;
    register long a1 asm("a1") = b;
    register long a7 asm("a7") = number;
    asm volatile("ecall" : "+r"(a0) : "r"(a1), "r"(a7) : "memory");
    return a0;
}

static unsigned char composite[100];
static const char digits[] = "0123456789";

static void write_number(int n) {
    char line[3];
    int length = 0;
    if (n >= 10) {
        line[length++] = digits[n / 10];
    }
    line[length++] = digits[n % 10];
    line[length++] = '\n';
    call(17, (long)line, length);
}

void _start(void) {
    int nodes = call(2, 0, 0);
    int rank = call(3, 0, 0);
    for (int n = 2; n < 100; n++) {
        if (!composite[n] && n % nodes == rank) {
            write_number(n);
        }
        for (int m = n * n; m < 100; m += n) {
            composite[m] = 1;
        }
    }
    call(1, 0, 0);
}
