/* The product of two matrices of 24 by 24, and a sum of its elements. */
#include <stdint.h>

enum { SIZE = 24 };

static int32_t left[SIZE][SIZE], right[SIZE][SIZE], product[SIZE][SIZE];

int main(void)
{
    for (int i = 0; i < SIZE; i++)
        for (int j = 0; j < SIZE; j++) {
            left[i][j] = i * 3 - j * 5;
            right[i][j] = i ^ (j * 7);
        }
    for (int i = 0; i < SIZE; i++)
        for (int j = 0; j < SIZE; j++) {
            int32_t sum = 0;
            for (int k = 0; k < SIZE; k++)
                sum += left[i][k] * right[k][j];
            product[i][j] = sum;
        }
    uint32_t answer = 0;
    for (int i = 0; i < SIZE; i++)
        for (int j = 0; j < SIZE; j++)
            answer = answer * 31 + (uint32_t)product[i][j];
    return (int)answer;
}
