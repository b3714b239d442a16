/* Bytes, memory, pages, the heap, and the stacks of threads. */
#include "host.h"

void *memmove(void *to, const void *from, size bytes) {
  byte *into = to;
  const byte *of = from;
  if ((size)to - (size)from >= bytes) /* `to` does not lie in what is still to be read */
    for (size at = 0; at < bytes; at++) into[at] = of[at];
  else
    while (bytes--) into[bytes] = of[bytes];
  return to;
}
void *memcpy(void *to, const void *from, size bytes) { return memmove(to, from, bytes); }
void *memset(void *to, long value, size bytes) {
  for (size at = 0; at < bytes; at++) ((byte *)to)[at] = value;
  return to;
}

int begins_with(const char *text, const char *wanted) {
  while (*wanted && *wanted == *text) wanted++, text++;
  return !*wanted;
}
int is_same(const char *text, const char *wanted) { return begins_with(text, wanted) && begins_with(wanted, text); }

/* A lock of the host's own. Nobody who holds one waits, yields or takes another, and no interrupt comes, so its owner always runs. In a processor's own loop
   interrupts stay off behind it. */
void lock(int *it) {
  interrupts_off();
  while (__atomic_exchange_n(it, 1, __ATOMIC_ACQUIRE)) pause();
}
void unlock(int *it) {
  __atomic_store_n(it, 0, __ATOMIC_RELEASE);
  if (me()->runs) interrupts_on();
}

/* ---- memory, as loaders and the firmware tell of it */

enum { MOST_REGIONS = 128 };
static struct region memory[MOST_REGIONS];
static unsigned memory_count;
struct region input;

/* Memory that may be used. What is above the top is of devices, or has no page. */
void has_memory(size start, size end) {
  if (start < MEMORY_TOP && memory_count < MOST_REGIONS) memory[memory_count++] = (struct region){start, end < MEMORY_TOP ? end : MEMORY_TOP};
}

/* The largest region of memory that nobody uses. Each region is cut in two by what is used of it. */
static struct region largest(void) {
  const struct region used[] = {{0, MEMORY_START}, {(size)image_start, (size)image_end}, input};
  struct region best = {0, 0};
  for (unsigned i = 0; i < memory_count; i++) {
    struct region it = memory[i];
    for (unsigned j = 0; j < sizeof used / sizeof *used; j++) {
      if (used[j].end <= it.start || used[j].start >= it.end) continue;
      if (used[j].end < it.end) has_memory(used[j].end, it.end);
      it.end = used[j].start > it.start ? used[j].start : it.start;
    }
    if (it.end - it.start > best.end - best.start) best = it;
  }
  return best;
}

/* ---- pages: each address is at itself. There are 4 GiB, in pages of 2 MiB, some of them cut into pages of 4 KiB before any other processor begins */

enum { MOST_CUT = MOST_THREADS * STACK_BYTES / LARGE_PAGE + 8 };
size directories[4 * 512] __attribute__((aligned(PAGE))) = {FIRST_PAGES};
static size *cut[4 * 512]; /* the table of a page that is cut */

static size entry(size at, size bits) { return at >> ENTRY_SHIFT | bits; }

/* Sets one page of 4 KiB. */
void set_page(size at, enum kind kind) {
  static size tables[MOST_CUT][512] __attribute__((aligned(PAGE)));
  static unsigned count;
  size large = at / LARGE_PAGE;
  if (!cut[large]) {
    if (count == MOST_CUT) ends("host: the image is too large", NO_ROOM);
    cut[large] = tables[count++];
    for (size i = 0; i < 512; i++) cut[large][i] = entry(large * LARGE_PAGE + i * PAGE, page_bits[DATA]);
    directories[large] = entry((size)cut[large], TABLE);
  }
  cut[large][at / PAGE % 512] = entry(at, page_bits[kind]);
}

/* There is no page at 0; code and constants are not written; nothing but code is run. */
void set_pages(void) {
  for (size i = 0; i < 4 * 512; i++)
    if (!cut[i]) directories[i] = entry(i * LARGE_PAGE, page_bits[i * LARGE_PAGE < MEMORY_START ? DEVICE : DATA] ^ LARGE);
  set_page(0, NO_PAGE);
  for (size at = (size)image_start; at < (size)constants_end; at += PAGE) set_page(at, at < (size)text_end ? CODE : CONSTANT);
}

/* ---- stacks of 1 MiB, one for each thread, at the end of the heap. The least 64 KiB of each are not there: a full stack is a page fault */

size stacks;
unsigned stack_count;

/* Whether there is no page since the stack above it ends there. */
int is_guard(size address) { return address - stacks < (size)stack_count * STACK_BYTES && (address - stacks) % STACK_BYTES < GUARD_BYTES; }

/* ---- the heap: free blocks are in a list, by address */

struct block { size bytes; struct block *next; }; /* a block begins with its bytes; `next` is of a free one */
enum { HEAD = 16 };
static struct block *free_blocks;
static size heap;
static int heap_lock;

static size end_of(const struct block *it) { return (size)it + it->bytes; }

/* All of it is free. */
void begin_heap(void) {
  free_blocks = (struct block *)heap;
  *free_blocks = (struct block){stacks - heap, 0};
}

/* Looks at what the loader left, and takes the largest region: two thirds from its end for stacks, or as much as all threads need, and the rest for the heap. A
   loader need not look whether what it loads fits. */
void set_memory(void) {
  size top = 0;
  for (unsigned i = 0; i < memory_count; i++) top = memory[i].end > top ? memory[i].end : top;
  if (input.end > top) ends("host: the plan is larger than the memory", NO_ROOM);
  struct region room = largest();
  size count = (room.end - room.start) / (STACK_BYTES + STACK_BYTES / 2);
  stack_count = count < MOST_THREADS ? count : MOST_THREADS;
  if (stack_count == 0) ends("host: too little memory", NO_ROOM);
  stacks = (room.end & ~(size)(PAGE - 1)) - (size)stack_count * STACK_BYTES;
  for (size at = stacks; at < room.end; at += PAGE)
    if (is_guard(at)) set_page(at, NO_PAGE);
  heap = (room.start + HEAD - 1) & ~(size)(HEAD - 1);
  forget_pages();
  begin_heap();
}

/* Room for some bytes that nobody else has, or 0: of the first free block that is large enough. */
static byte *take(size bytes) {
  if (bytes > (size)1 << 32) return 0;
  size whole = (bytes + HEAD + HEAD - 1) & ~(size)(HEAD - 1);
  struct block **at = &free_blocks, *it;
  lock(&heap_lock);
  while (*at && (*at)->bytes < whole) at = &(*at)->next;
  it = *at;
  if (it && it->bytes > whole) {
    *at = (struct block *)((size)it + whole);
    **at = (struct block){it->bytes - whole, it->next};
    it->bytes = whole;
  } else if (it)
    *at = it->next;
  unlock(&heap_lock);
  return it ? (byte *)it + HEAD : 0;
}

/* Puts a block back into the list, and joins it with the free ones about it. */
void rattle_dealloc(byte *p) {
  struct block *it = (struct block *)(p - HEAD), *before = 0, **at = &free_blocks;
  lock(&heap_lock);
  for (; *at && *at < it; at = &before->next) before = *at;
  it->next = *at;
  *at = it;
  if (it->next && (size)it->next == end_of(it)) *it = (struct block){it->bytes + it->next->bytes, it->next->next};
  if (before && (size)it == end_of(before)) *before = (struct block){before->bytes + it->bytes, it->next};
  unlock(&heap_lock);
}

struct tried rattle_alloc(size bytes, size align) {
  static byte nowhere; /* what a refusal points at, since it may not be 0 */
  byte *p = align > HEAD ? 0 : take(bytes);
  return (struct tried){p != 0, p ? p : &nowhere};
}
struct tried rattle_realloc(byte *p, size kept, size bytes, size align) {
  if (bytes <= *(const size *)(p - HEAD) - HEAD) return (struct tried){1, p};
  struct tried moved = rattle_alloc(bytes, align);
  if (!moved.ok) return moved;
  memcpy(moved.p, p, kept);
  rattle_dealloc(p);
  return moved;
}
void *malloc(size bytes) { return take(bytes); }
void free(void *p) {
  if (p) rattle_dealloc(p);
}
