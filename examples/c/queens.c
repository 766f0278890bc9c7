/* How many ways there are to put six queens on a board of six by six (4), and five on five by five (10). */
#include <stdint.h>

static int board[8];

static int is_free(int row, int column)
{
    for (int i = 0; i < row; i++) {
        int distance = board[i] - column;
        if (distance == 0 || distance == row - i || distance == i - row)
            return 0;
    }
    return 1;
}

static uint32_t place(int row, int size)
{
    if (row == size)
        return 1;
    uint32_t ways = 0;
    for (int column = 0; column < size; column++)
        if (is_free(row, column)) {
            board[row] = column;
            ways += place(row + 1, size);
        }
    return ways;
}

int main(void)
{
    return (int)(place(0, 5) << 16 | place(0, 6));
}
