/* The primes below 4000 by the sieve of Eratosthenes: their count and their sum. */
#include <stdint.h>

enum { LIMIT = 4000 };

static uint8_t is_composite[LIMIT];

int main(void)
{
    uint32_t count = 0, sum = 0;
    for (int n = 2; n < LIMIT; n++) {
        if (is_composite[n])
            continue;
        count++;
        sum += (uint32_t)n;
        for (int multiple = n * n; multiple < LIMIT; multiple += n)
            is_composite[multiple] = 1;
    }
    return (int)(count << 24 ^ sum);
}
