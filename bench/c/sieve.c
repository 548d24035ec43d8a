/* A sieve of Eratosthenes over the numbers below 200,000, a byte for each. */
#include "rounds.h"

#define END 200000

static char composite[END];

static int primes(void)
{
    int count = 0;

    for (int i = 0; i < END; i++)
        composite[i] = 0;
    for (int i = 2; i * i < END; i++)
        if (!composite[i])
            for (int j = i * i; j < END; j += i)
                composite[j] = 1;
    for (int i = 2; i < END; i++)
        count += !composite[i];
    return count;
}

int main(void)
{
    int count = rounds(45), all = 0;

    for (int round = 0; round < count; round++)
        all += primes();
    printf("primes below %d, counted %d times: %d\n", END, count, all);
    return 0;
}
