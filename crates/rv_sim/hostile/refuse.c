// Stands between the program and the C library, through which alone it asks for memory, reads and writes, and makes one call fail.
//
// HOSTILE_CALL says which sort of call: request (of memory), read (of standard input) or write (of standard output). HOSTILE_AT is
// the number of the one that fails, from 1, or 0 for none; with ".." after it all later ones fail too. HOSTILE_WAY says how a read or
// write fails: error (EIO), none (it moves nothing) or short (it moves one byte). At the end the number of such calls is written on
// descriptor 9, where that is open.
#define _GNU_SOURCE
#include <errno.h>
#include <stdio.h>
#include <stdlib.h>
#include <string.h>
#include <sys/syscall.h>
#include <unistd.h>

extern void *__libc_malloc(size_t size);
extern void *__libc_calloc(size_t count, size_t size);
extern void *__libc_realloc(void *block, size_t size);

enum call { NO_CALL, REQUEST, READ, WRITE };

static enum call watched = NO_CALL;
static enum { ERROR, NONE, SHORT } way = ERROR;
static long at = 0;
static int and_later = 0;
static long calls = 0;

static int is(const char *name, const char *word) {
  const char *given = getenv(name);
  return given != NULL && strcmp(given, word) == 0;
}

__attribute__((constructor)) static void begin(void) {
  const char *number = getenv("HOSTILE_AT");
  at = number == NULL ? 0 : atol(number);
  and_later = number != NULL && strstr(number, "..") != NULL;
  way = is("HOSTILE_WAY", "none") ? NONE : is("HOSTILE_WAY", "short") ? SHORT : ERROR;
  watched = is("HOSTILE_CALL", "request") ? REQUEST
            : is("HOSTILE_CALL", "read")  ? READ
            : is("HOSTILE_CALL", "write") ? WRITE
                                          : NO_CALL;
}

__attribute__((destructor)) static void end(void) {
  char line[32];
  int length = snprintf(line, sizeof line, "%ld\n", calls);
  syscall(SYS_write, 9, line, (size_t)length);
}

static int fails(enum call call) {
  if (call != watched) return 0;
  calls += 1;
  return calls == at || (and_later && calls > at);
}

static void *refused(void) {
  errno = ENOMEM;
  return NULL;
}

void *malloc(size_t size) { return fails(REQUEST) ? refused() : __libc_malloc(size); }

void *calloc(size_t count, size_t size) { return fails(REQUEST) ? refused() : __libc_calloc(count, size); }

void *realloc(void *block, size_t size) { return fails(REQUEST) ? refused() : __libc_realloc(block, size); }

// How many bytes a read or write that fails may move; -1 says that it answers an error.
static ssize_t left(size_t count) {
  if (way == SHORT) return count > 0;
  if (way == NONE) return 0;
  errno = EIO;
  return -1;
}

ssize_t read(int from, void *bytes, size_t count) {
  if (from == 0 && fails(READ)) {
    ssize_t some = left(count);
    if (some <= 0) return some;
    count = 1;
  }
  return syscall(SYS_read, from, bytes, count);
}

ssize_t write(int to, const void *bytes, size_t count) {
  if (to == 1 && fails(WRITE)) {
    ssize_t some = left(count);
    if (some <= 0) return some;
    count = 1;
  }
  return syscall(SYS_write, to, bytes, count);
}
