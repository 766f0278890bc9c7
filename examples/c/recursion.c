/* Fibonacci numbers and Ackermann's function, each by its own definition. */
#include <stdint.h>

static uint32_t fibonacci(uint32_t n)
{
    return n < 2 ? n : fibonacci(n - 1) + fibonacci(n - 2);
}

static uint32_t ackermann(uint32_t m, uint32_t n)
{
    if (m == 0)
        return n + 1;
    return ackermann(m - 1, n == 0 ? 1 : ackermann(m, n - 1));
}

int main(void)
{
    return fibonacci(15) * 1000 + ackermann(2, 9);
}
