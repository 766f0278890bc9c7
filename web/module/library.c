// The C library of the program as WebAssembly: a heap over the module's memory, the words of the command, one input and two outputs, by
// what the page hands in. On Linux the kit's own C does this over glibc. No proof covers it, as none covers those.
//
// The program's usize has 64 bits, and a pointer in hand has 32.
typedef unsigned char byte;
typedef unsigned long long size;
typedef long long count;
typedef unsigned int word;

enum { EBADF = 9, EIO = 5, ESPIPE = 29 };

// ---- what the page hands in. Each answers how many bytes it moved, or -1.
#define HOST(name) __attribute__((import_module("host"), import_name(name)))
HOST("word") int host_word(word index, byte *to, word room);
HOST("read") int host_read(byte *to, word room);
HOST("write") int host_write(int stream, const byte *from, word length);

// ---- the heap. Blocks of one class have one size, of which there are four between two powers of two; a freed block goes to those of its
// class, and the last block of all back to the rest. The memory grows by need. Where the page grants no more, the request is refused.
struct block {
  size room;
  struct block *next;
};
_Static_assert(sizeof(struct block) == 16, "what follows a head is aligned to 16 bytes");

enum { PAGE = 65536, MORE = 64, CLASSES = 128 };
static const size GREATEST = 1ull << 31;
extern byte __heap_base;
static struct block *freed[CLASSES];
static size top, end;

// The class of a block of so many bytes, at most GREATEST, and the bytes that it has.
static word class_of(size wanted, size *room) {
  if (wanted <= 64) {
    *room = wanted < 16 ? 16 : (wanted + 15) & ~15ull;
    return (word)(*room / 16) - 1;
  }
  word bits = 63 - (word)__builtin_clzll(wanted - 1);
  size step = 1ull << (bits - 2);
  *room = (wanted + step - 1) & ~(step - 1);
  return 4 + (bits - 6) * 4 + (word)((*room - (1ull << bits)) / step) - 1;
}

// Whether the memory reaches so far, after it grew where it has to.
static int reaches(size place) {
  if (end == 0) {
    top = ((size)(word)&__heap_base + 15) & ~15ull;
    end = (size)__builtin_wasm_memory_size(0) * PAGE;
  }
  if (place <= end) return 1;
  if (place > 1ull << 32) return 0;
  size pages = (place - end + PAGE - 1) / PAGE;
  if (pages < MORE && __builtin_wasm_memory_grow(0, MORE) != (unsigned long)-1) {
    end += (size)MORE * PAGE;
  } else {
    if (__builtin_wasm_memory_grow(0, (unsigned long)pages) == (unsigned long)-1) return 0;
    end += pages * PAGE;
  }
  return 1;
}

static struct block *head_of(byte *bytes) { return (struct block *)bytes - 1; }
static int is_last(struct block *block) { return (size)(word)(block + 1) + block->room == top; }

static byte *take(size wanted) {
  if (wanted > GREATEST) return 0;
  size room;
  word class = class_of(wanted, &room);
  struct block *block = freed[class];
  if (block) {
    freed[class] = block->next;
    return (byte *)(block + 1);
  }
  if (!reaches(0) || !reaches(top + sizeof *block + room)) return 0;
  block = (struct block *)(word)top;
  block->room = room;
  top += sizeof *block + room;
  return (byte *)(block + 1);
}

static void give_back(byte *bytes) {
  struct block *block = head_of(bytes);
  if (is_last(block)) {
    top = (size)(word)block;
    return;
  }
  size room;
  word class = class_of(block->room, &room);
  block->next = freed[class];
  freed[class] = block;
}

// Whether the block has room for so many bytes, after it grew in its place where it is the last.
static int has_room(byte *bytes, size wanted) {
  struct block *block = head_of(bytes);
  if (wanted <= block->room) return 1;
  if (wanted > GREATEST || !is_last(block)) return 0;
  size room;
  class_of(wanted, &room);
  if (!reaches((size)(word)bytes + room)) return 0;
  block->room = room;
  top = (size)(word)bytes + room;
  return 1;
}

// What the program calls: whether there is such a block, which is aligned to 16 bytes, and where.
struct tried {
  size ok, bytes;
};
static struct tried got(byte *bytes) { return (struct tried){bytes != 0, (word)bytes}; }

struct tried rattle_alloc(size wanted, size align) {
  (void)align;
  return got(take(wanted));
}

struct tried rattle_realloc(byte *bytes, size kept, size wanted, size align) {
  (void)align;
  if (has_room(bytes, wanted)) return got(bytes);
  byte *other = take(wanted);
  if (other) {
    __builtin_memcpy(other, bytes, (word)kept);
    give_back(bytes);
  }
  return got(other);
}

void rattle_dealloc(byte *bytes) {
  if (bytes) give_back(bytes);
}

// ---- the words of the command
static word shorter(size length) { return length < GREATEST ? (word)length : (word)GREATEST; }

size rattle_arg_count(void) {
  word found = 0;
  while (host_word(found, 0, 0) >= 0) found++;
  return found;
}

// The length of a word, whose bytes stand at `to`; -1 where there is none, -2 where it does not fit.
count rattle_arg(size index, byte *to, size room) {
  int length = index < GREATEST ? host_word((word)index, to, shorter(room)) : -1;
  return length > 0 && (size)length > room ? -2 : length;
}

// There is no environment.
count rattle_env(const byte *name, byte *to, size room) { return (void)name, (void)to, (void)room, -1; }
count rattle_env_at(size index, byte *to, size room) { return (void)index, (void)to, (void)room, -1; }

// ---- the streams: 0 is read, 1 and 2 are written
static int error;
int rattle_errno(void) { return error; }
void rattle_set_errno(int number) { error = number; }

static count moved(int bytes) {
  if (bytes < 0) error = EIO;
  return bytes;
}

count read(int stream, byte *to, size room) {
  if (stream == 0) return moved(host_read(to, shorter(room)));
  error = EBADF;
  return -1;
}

count write(int stream, const byte *from, size length) { return moved(host_write(stream, from, shorter(length))); }

count lseek(int stream, count offset, int whence) {
  (void)stream, (void)offset, (void)whence;
  error = ESPIPE;
  return -1;
}

// There are no signals.
count __sysv_signal(int number, count handler) { return (void)number, (void)handler, 0; }

// ---- what clang calls for numbers of 128 bits
typedef unsigned __int128 wide;
static wide of(size high, size low) { return (wide)high << 64 | low; }

wide __multi3(wide a, wide b) {
  size a_low = (word)a, a_high = (size)a >> 32, b_low = (word)b, b_high = (size)b >> 32;
  size low = a_low * b_low;
  size middle = a_high * b_low + (low >> 32);
  size other = a_low * b_high + (word)middle;
  size high = a_high * b_high + (middle >> 32) + (other >> 32);
  return of(high + (size)(a >> 64) * (size)b + (size)a * (size)(b >> 64), other << 32 | (word)low);
}

wide __ashlti3(wide a, int by) {
  size low = (size)a, high = (size)(a >> 64);
  if (by >= 64) return of(low << (by - 64), 0);
  return by == 0 ? a : of(high << by | low >> (64 - by), low << by);
}

wide __lshrti3(wide a, int by) {
  size low = (size)a, high = (size)(a >> 64);
  if (by >= 64) return of(0, high >> (by - 64));
  return by == 0 ? a : of(high >> by, low >> by | high << (64 - by));
}
