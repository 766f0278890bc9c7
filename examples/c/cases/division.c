/* 64-bit division and floating point from the compiler's library, calls by a table, and more RAM than the standard machine has. */
#include <stdint.h>
static char big[200000];
static int twice(int x) { return 2 * x; }
static int thrice(int x) { return 3 * x; }
static int (*const table[])(int) = {twice, thrice};
static const char *const names[] = {"a", "bcd", "ef"};
const char odd[3] = {1, 2, 3};
short half = 7;
int main(void)
{
    volatile uint64_t a = 123456789012345u, b = 1237;
    volatile float f = 1.5f;
    big[199999] = 3;
    int sum = (int)(a / b) + (int)(f * 4);
    for (int i = 0; i < 2; i++) sum += table[i](5);
    return sum + names[1][2] + odd[2] + half + big[199999];
}
