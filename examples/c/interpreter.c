/* An interpreter of a small stack machine. Its program finds the greatest common divisors of 40 pairs of numbers and adds them. */
#include <stdint.h>

enum operation { PUSH, LOAD, STORE, ADD, SUBTRACT, REMAINDER, LESS, JUMP, JUMP_IF_ZERO, HALT };

static const int16_t program[] = {
    PUSH, 1, STORE, 0,                                  /*  0: i = 1 */
    LOAD, 0, PUSH, 41, LESS, JUMP_IF_ZERO, 61,          /*  4: while i < 41 */
    LOAD, 0, LOAD, 0, ADD, LOAD, 0, ADD, STORE, 1,      /* 11: a = 3 i */
    PUSH, 360, LOAD, 0, ADD, STORE, 2,                  /* 21: b = 360 + i */
    LOAD, 2, JUMP_IF_ZERO, 45,                          /* 28: while b */
    LOAD, 1, LOAD, 2, REMAINDER,                        /* 32: a % b stays on the stack */
    LOAD, 2, STORE, 1, STORE, 2,                        /* 37: a = b, b = it */
    JUMP, 28,                                           /* 43 */
    LOAD, 3, LOAD, 1, ADD, STORE, 3,                    /* 45: sum += a */
    LOAD, 0, PUSH, 1, ADD, STORE, 0,                    /* 52: i += 1 */
    JUMP, 4,                                            /* 59 */
    LOAD, 3, HALT,                                      /* 61 */
};

int main(void)
{
    int32_t stack[16], variables[4] = {0};
    int top = 0;
    uint32_t steps = 0;
    for (const int16_t *at = program;; steps++)
        switch ((enum operation)*at++) {
        case PUSH: stack[top++] = *at++; break;
        case LOAD: stack[top++] = variables[*at++]; break;
        case STORE: variables[*at++] = stack[--top]; break;
        case ADD: top--; stack[top - 1] += stack[top]; break;
        case SUBTRACT: top--; stack[top - 1] -= stack[top]; break;
        case REMAINDER: top--; stack[top - 1] %= stack[top]; break;
        case LESS: top--; stack[top - 1] = stack[top - 1] < stack[top]; break;
        case JUMP: at = program + *at; break;
        case JUMP_IF_ZERO: at = stack[--top] == 0 ? program + *at : at + 1; break;
        case HALT: return (int)(steps << 16 ^ (uint32_t)stack[top - 1]);
        }
}
