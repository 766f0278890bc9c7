/* Finds words in a text by trying each place, and by the method of Boyer, Moore and Horspool. */
#include "library.h"
#include <stdint.h>

static const char text[] =
    "It was the best of times, it was the worst of times, it was the age of wisdom, it was the age of foolishness, "
    "it was the epoch of belief, it was the epoch of incredulity, it was the season of Light, it was the season of Darkness, "
    "it was the spring of hope, it was the winter of despair, we had everything before us, we had nothing before us.";

static const char *const words[] = {"times", "incredulity", "the winter of", "nothing before us.", "never", "t"};

static uint32_t each_place(const char *word)
{
    size_t length = strlen(word), end = sizeof text - 1;
    uint32_t found = 0;
    for (size_t i = 0; i + length <= end; i++)
        if (memcmp(text + i, word, length) == 0)
            found = found * 31 + (uint32_t)i + 1;
    return found;
}

static uint32_t horspool(const char *word)
{
    static uint8_t steps[128];
    size_t length = strlen(word), end = sizeof text - 1;
    uint32_t found = 0;
    memset(steps, (int)length, sizeof steps);
    for (size_t i = 0; i + 1 < length; i++)
        steps[(uint8_t)word[i]] = (uint8_t)(length - 1 - i);
    for (size_t i = 0; i + length <= end; i += steps[(uint8_t)text[i + length - 1]])
        if (memcmp(text + i, word, length) == 0)
            found = found * 31 + (uint32_t)i + 1;
    return found;
}

int main(void)
{
    uint32_t answer = 0;
    for (unsigned i = 0; i < sizeof words / sizeof *words; i++) {
        uint32_t found = each_place(words[i]);
        if (found != horspool(words[i]))
            return -1;
        answer = answer * 7 + found;
    }
    return (int)answer;
}
