// Linked to the program beside library.c for trials alone: requests for memory that are refused as the host says, and calls that try the
// heap, the numbers of 128 bits and the end of the stack by themselves.
typedef unsigned char byte;
typedef unsigned long long size;
typedef unsigned int word;

#define EXPORT(name) __attribute__((export_name(name)))
__attribute__((import_module("host"), import_name("refuses"))) int host_refuses(void);

struct tried {
  size ok, bytes;
};
struct tried __real_rattle_alloc(size wanted, size align);
struct tried __real_rattle_realloc(byte *bytes, size kept, size wanted, size align);
void rattle_dealloc(byte *bytes);

struct tried __wrap_rattle_alloc(size wanted, size align) {
  return host_refuses() ? (struct tried){0, 0} : __real_rattle_alloc(wanted, align);
}

struct tried __wrap_rattle_realloc(byte *bytes, size kept, size wanted, size align) {
  return host_refuses() ? (struct tried){0, 0} : __real_rattle_realloc(bytes, kept, wanted, align);
}

// Blocks of random sizes are taken, made larger and given back; each is full of its own byte. Answers the first step after which one is not,
// or a block is not aligned, else 0.
enum { BLOCKS = 64 };
static struct {
  byte *bytes;
  word length;
  byte fill;
} blocks[BLOCKS];

static word state;
static word next(void) { return state = state * 1664525 + 1013904223; }

static int is_full(word at, word length) {
  for (word place = 0; place < length; place++)
    if (blocks[at].bytes[place] != blocks[at].fill) return 0;
  return 1;
}

EXPORT("try_heap") word try_heap(word seed, word steps) {
  state = seed;
  for (word step = 1; step <= steps; step++) {
    word at = (next() >> 16) % BLOCKS, length = (next() >> 8) % (1u << (4 + (next() >> 16) % 14)) + 1;
    byte *old = blocks[at].bytes;
    if (old && !is_full(at, blocks[at].length)) return step;
    if (old && next() >> 31) {
      rattle_dealloc(old);
      blocks[at].bytes = 0;
      continue;
    }
    word kept = old ? (blocks[at].length < length ? blocks[at].length : length) : 0;
    struct tried tried = old ? __real_rattle_realloc(old, kept, length, 16) : __real_rattle_alloc(length, 16);
    if (!tried.ok || tried.bytes % 16) return step;
    blocks[at].bytes = (byte *)(word)tried.bytes;
    if (!is_full(at, kept)) return step;
    blocks[at].length = length;
    blocks[at].fill = (byte)(next() >> 24);
    for (word place = 0; place < length; place++) blocks[at].bytes[place] = blocks[at].fill;
  }
  return 0;
}

EXPORT("try_request") int try_request(size wanted) { return (int)__real_rattle_alloc(wanted, 16).ok; }

// Numbers of 128 bits, as clang has them computed.
static union {
  unsigned __int128 all;
  size halves[2];
} wide;

EXPORT("try_wide") size *try_wide(int operation, size a_low, size a_high, size b_low, size b_high) {
  unsigned __int128 a = (unsigned __int128)a_high << 64 | a_low, b = (unsigned __int128)b_high << 64 | b_low;
  wide.all = operation == 0 ? a * b : operation == 1 ? a << (b_low & 127) : a >> (b_low & 127);
  return wide.halves;
}

// Goes down the stack by frames of 16 KiB, each a call of its own.
__attribute__((noinline, optnone)) EXPORT("try_stack") word try_stack(word frames) {
  volatile byte frame[16384];
  frame[0] = (byte)frames;
  return frames == 0 ? 0 : try_stack(frames - 1) + frame[0];
}
