/* A fast Fourier transform of 64 points in fixed point with 14 bits after the point, forth and back. */
#include <stdint.h>

enum { COUNT = 64, BITS = 6, POINT = 14 };

/* A quarter of a sine, in steps of a 64th of the circle. */
static const int16_t quarter[COUNT / 4 + 1] = {
    0, 1606, 3196, 4756, 6270, 7723, 9102, 10394, 11585, 12665, 13623, 14449, 15137, 15679, 16069, 16305, 16384,
};

static int32_t real[COUNT], imaginary[COUNT];

static int32_t sine(int step)
{
    step &= COUNT - 1;
    if (step >= COUNT / 2)
        return -sine(step - COUNT / 2);
    return step <= COUNT / 4 ? quarter[step] : quarter[COUNT / 2 - step];
}

static void reverse_bits(void)
{
    for (int i = 0; i < COUNT; i++) {
        int j = 0;
        for (int bit = 0; bit < BITS; bit++)
            j |= (i >> bit & 1) << (BITS - 1 - bit);
        if (i < j) {
            int32_t kept = real[i];
            real[i] = real[j];
            real[j] = kept;
            kept = imaginary[i];
            imaginary[i] = imaginary[j];
            imaginary[j] = kept;
        }
    }
}

static void transform(int direction)
{
    reverse_bits();
    for (int half = 1; half < COUNT; half *= 2)
        for (int k = 0; k < half; k++) {
            int step = k * (COUNT / 2 / half);
            int32_t c = sine(step + COUNT / 4), s = direction * sine(step);
            for (int i = k; i < COUNT; i += 2 * half) {
                int j = i + half;
                int32_t x = (real[j] * c - imaginary[j] * s) >> POINT, y = (real[j] * s + imaginary[j] * c) >> POINT;
                real[j] = real[i] - x;
                imaginary[j] = imaginary[i] - y;
                real[i] += x;
                imaginary[i] += y;
            }
        }
}

int main(void)
{
    uint32_t answer = 0;
    for (int i = 0; i < COUNT; i++)
        real[i] = (i * 37 & 255) - 128;
    transform(-1);
    for (int i = 0; i < COUNT; i++)
        answer = answer * 31 + (uint32_t)real[i] * 3 + (uint32_t)imaginary[i];
    transform(1);
    for (int i = 0; i < COUNT; i++) {
        int32_t error = real[i] / COUNT - ((i * 37 & 255) - 128);
        if (error > 2 || error < -2)
            return -1;
    }
    return (int)answer;
}
