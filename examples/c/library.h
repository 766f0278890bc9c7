/* The four functions that a compiler may call by itself. */
#ifndef LIBRARY_H
#define LIBRARY_H
#include <stddef.h>

void *memcpy(void *to, const void *from, size_t count);
void *memset(void *to, int byte, size_t count);
int memcmp(const void *left, const void *right, size_t count);
size_t strlen(const char *text);

#endif
