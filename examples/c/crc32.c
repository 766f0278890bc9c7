/* CRC-32 of a text, bit by bit and by a table. For "123456789" it is cbf43926. */
#include "library.h"
#include <stdint.h>

static uint32_t table[256];

static uint32_t shift(uint32_t value)
{
    for (int bit = 0; bit < 8; bit++)
        value = value & 1 ? value >> 1 ^ 0xedb88320u : value >> 1;
    return value;
}

static uint32_t by_bits(const char *text, size_t length)
{
    uint32_t sum = ~0u;
    for (size_t i = 0; i < length; i++)
        sum = shift(sum ^ (uint8_t)text[i]);
    return ~sum;
}

static uint32_t by_table(const char *text, size_t length)
{
    uint32_t sum = ~0u;
    for (size_t i = 0; i < length; i++)
        sum = sum >> 8 ^ table[(sum ^ (uint8_t)text[i]) & 255];
    return ~sum;
}

int main(void)
{
    static const char digits[] = "123456789";
    static const char text[] = "The quick brown fox jumps over the lazy dog. Pack my box with five dozen liquor jugs.";
    for (uint32_t i = 0; i < 256; i++)
        table[i] = shift(i);
    if (by_bits(digits, strlen(digits)) != 0xcbf43926u || by_table(digits, strlen(digits)) != 0xcbf43926u)
        return -1;
    uint32_t answer = by_bits(text, strlen(text));
    return answer == by_table(text, strlen(text)) ? (int)answer : -1;
}
