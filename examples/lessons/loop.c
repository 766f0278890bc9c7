/* The sum of 64 numbers. */
static int numbers[64] = {3, 1, 4, 1, 5, 9, 2, 6, 5, 3, 5, 8, 9, 7, 9, 3, 2, 3, 8, 4, 6, 2, 6, 4, 3, 3, 8, 3, 2, 7, 9, 5};

int main(void)
{
    int sum = 0;
    for (int i = 0; i < 64; i++)
        sum += numbers[i];
    return sum;
}
