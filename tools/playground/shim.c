// What the program asks of its host, for a browser: memory, and operators of 128 bits; where it is a whole program and no
// library, also words, reading and writing, which then come from the page. Nothing is kept from one call to the next.
typedef unsigned long long u64;
typedef long long i64;
typedef unsigned char u8;
typedef struct { u64 one, two; } Pair;
typedef unsigned __int128 Wide;

// Memory: blocks of sizes of which there are four to each doubling, each with its class before it; one free list for
// each size. New blocks are taken from the end of the memory.
extern u8 __heap_base;
typedef struct Block { u64 class; struct Block *next; } Block;   // 16 bytes before what is given out
static Block *lists[256];
static u64 top, limit;
static u8 nothing[16];

// How many requests are still granted: with a number, those that follow it are refused, so that a test can refuse them.
static u64 granted = ~0ull;
__attribute__((export_name("grant"))) void page_grant(u64 count) { granted = count; }

// The class of a size, and the size of a class.
static u64 class_of(u64 size) {
  if (size <= 64) return (size + 15) / 16;                       // 1..4: 16, 32, 48, 64
  u64 high = 63 - __builtin_clzll(size - 1), step = high - 2;    // four steps within a doubling
  u64 part = ((size - 1) >> step) & 3;
  return 5 + (high - 6) * 4 + part;
}
static u64 size_of(u64 class) {
  if (class <= 4) return class * 16;
  u64 high = (class - 5) / 4 + 6, part = (class - 5) % 4;
  return (1ull << high) + (part + 1) * (1ull << (high - 2));
}

// Makes room for so many more bytes at the end; 0 where there is none.
static int grow(u64 bytes) {
  if (!top) { top = ((u64)&__heap_base + 15) & ~15ull; limit = __builtin_wasm_memory_size(0) << 16; }
  if (top + bytes <= limit) return 1;
  u64 pages = (top + bytes - limit + 65535) >> 16, more = limit >> 18;   // by a quarter at least
  if (pages < more) pages = more;
  if (__builtin_wasm_memory_grow(0, pages) == (unsigned long)-1) return 0;
  limit += pages << 16;
  return 1;
}

// A block of so many bytes, or 0.
static void *take(u64 size) {
  if (size > 1ull << 32) return 0;
  u64 class = class_of(size ? size : 1);
  Block *block = lists[class];
  if (block) { lists[class] = block->next; return block + 1; }
  u64 bytes = size_of(class) + sizeof(Block);
  if (!grow(bytes)) return 0;
  block = (Block *)top;
  top += bytes;
  block->class = class;
  return block + 1;
}

// A block for the program, where one is granted.
static void *granted_block(u64 size) {
  if (!granted) return 0;
  if (granted != ~0ull) granted--;
  return take(size);
}

Pair rattle_alloc(u64 size, u64 align) {
  void *at = granted_block(size ? size : align);
  return (Pair){at != 0, (u64)(at ? at : nothing)};
}
void rattle_dealloc(void *at) {
  if (!at) return;
  Block *block = (Block *)at - 1;
  block->next = lists[block->class];
  lists[block->class] = block;
}
Pair rattle_realloc(void *at, u64 old, u64 size, u64 align) {
  u64 had = at ? size_of(((Block *)at - 1)->class) : 0;
  if (at && had >= size) return (Pair){1, (u64)at};
  void *now = granted_block(size ? size : align);
  if (!now) return (Pair){0, (u64)nothing};
  if (at) { __builtin_memcpy(now, at, had < size ? had : size); rattle_dealloc(at); }
  return (Pair){1, (u64)now};
}

// Numbers of 128 bits, each given by its two halves: a product, quotients, which go towards zero, and shifts by less than
// 128 places.
static Wide wide(u64 low, u64 high) { return ((Wide)high << 64) | low; }

__attribute__((no_builtin)) Wide __multi3(u64 alow, u64 ahigh, u64 blow, u64 bhigh) {
  u64 a0 = alow & 0xffffffff, a1 = alow >> 32, b0 = blow & 0xffffffff, b1 = blow >> 32;
  u64 low = a0 * b0, mid = a1 * b0 + (low >> 32), mid2 = a0 * b1 + (mid & 0xffffffff);
  u64 high = a1 * b1 + (mid >> 32) + (mid2 >> 32) + alow * bhigh + ahigh * blow;
  return wide((mid2 << 32) | (low & 0xffffffff), high);
}

// Bit by bit: the bits of the quotient come in from the right as those of the dividend go out on the left, to the rest.
__attribute__((no_builtin)) Wide __udivti3(u64 alow, u64 ahigh, u64 blow, u64 bhigh) {
  u64 low = 0, high = 0;
  if (!ahigh && !bhigh) return alow / blow;
  for (int at = 0; at < 128; at++) {
    u64 over = high >> 63;
    high = high << 1 | low >> 63;
    low = low << 1 | ahigh >> 63;
    ahigh = ahigh << 1 | alow >> 63;
    alow <<= 1;
    if (!over && (high < bhigh || (high == bhigh && low < blow))) continue;
    high -= bhigh + (low < blow);
    low -= blow;
    alow |= 1;
  }
  return wide(alow, ahigh);
}

__attribute__((no_builtin)) Wide __divti3(u64 alow, u64 ahigh, u64 blow, u64 bhigh) {
  Wide a = wide(alow, ahigh), b = wide(blow, bhigh);
  if ((i64)ahigh < 0) a = -a;
  if ((i64)bhigh < 0) b = -b;
  Wide both = __udivti3((u64)a, (u64)(a >> 64), (u64)b, (u64)(b >> 64));
  return (i64)(ahigh ^ bhigh) < 0 ? -both : both;
}

__attribute__((no_builtin)) Wide __ashlti3(u64 low, u64 high, int by) {
  if (by & 64) return wide(0, low << (by & 63));
  return by ? wide(low << by, high << by | low >> (64 - by)) : wide(low, high);
}
__attribute__((no_builtin)) Wide __lshrti3(u64 low, u64 high, int by) {
  if (by & 64) return wide(high >> (by & 63), 0);
  return by ? wide(low >> by | high << (64 - by), high >> by) : wide(low, high);
}
__attribute__((no_builtin)) Wide __ashrti3(u64 low, u64 high, int by) {
  if (by & 64) return wide((u64)((i64)high >> (by & 63)), (u64)((i64)high >> 63));
  return by ? wide(low >> by | high << (64 - by), (u64)((i64)high >> by)) : wide(low, high);
}

#ifdef WHOLE_PROGRAM
__attribute__((import_module("page"), import_name("read"))) i64 page_read(void *to, u64 count);
__attribute__((import_module("page"), import_name("write"))) i64 page_write(int stream, const void *from, u64 count);
__attribute__((import_module("page"), import_name("word"))) i64 page_word(u64 number, void *to, u64 room);

static int fault;
int rattle_errno(void) { return fault; }
void rattle_set_errno(int number) { fault = number; }
i64 rattle_arg(u64 number, void *to, u64 room) { return page_word(number, to, room); }
i64 rattle_env(const void *name, void *to, u64 room) { return -1; }
i64 rattle_env_at(u64 number, void *to, u64 room) { return -1; }
i64 read(int stream, void *to, u64 count) { return page_read(to, count); }
i64 write(int stream, const void *from, u64 count) { return page_write(stream, from, count); }
i64 __sysv_signal(int number, i64 handler) { return 0; }
extern int main(void);
__attribute__((export_name("start"))) int start(void) { return main(); }
#else
// Room for words, text and answers, for the page.
__attribute__((export_name("take"))) void *page_take(u64 size) { return take(size ? size : 1); }
__attribute__((export_name("give"))) void page_give(void *at) { rattle_dealloc(at); }
#endif
