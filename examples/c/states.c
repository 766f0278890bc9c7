/* A state machine that counts the words, numbers, comments and strings of a text. */
#include <stdint.h>

enum state { BETWEEN, WORD, NUMBER, COMMENT, STRING, ESCAPE };

static const char text[] =
    "int main(void) # the start\n{ int count = 0x1f; print(\"a \\\"b\\\" # c\", 12, count); # \"no string\"\n"
    "  for (int i = 0; i < 100; i++) count += i * 3; return count - 1024; }\n# 42 the end\nint last = 7;\n";

static int is_letter(char c)
{
    return (c >= 'a' && c <= 'z') || (c >= 'A' && c <= 'Z') || c == '_';
}

static int is_digit(char c)
{
    return c >= '0' && c <= '9';
}

static enum state begin(char c, uint32_t *counts)
{
    enum state next = is_letter(c) ? WORD : is_digit(c) ? NUMBER : c == '#' ? COMMENT : c == '"' ? STRING : BETWEEN;
    counts[next]++;
    return next;
}

static enum state step(enum state now, char c, uint32_t *counts)
{
    switch (now) {
    case WORD:
    case NUMBER:
        return is_letter(c) || is_digit(c) ? now : begin(c, counts);
    case COMMENT:
        return c == '\n' ? BETWEEN : COMMENT;
    case STRING:
        return c == '\\' ? ESCAPE : c == '"' ? BETWEEN : STRING;
    case ESCAPE:
        return STRING;
    default:
        return begin(c, counts);
    }
}

int main(void)
{
    uint32_t counts[6] = {0};
    enum state now = BETWEEN;
    for (int turn = 0; turn < 4; turn++)
        for (const char *c = text; *c; c++)
            now = step(now, *c, counts);
    return (int)(counts[WORD] << 24 | counts[NUMBER] << 16 | counts[COMMENT] << 8 | counts[STRING]);
}
