/* What the proved program asks of a C library and of the compiler's own, for a page: one run to an instance.

   Standard input and the words of the command line are one buffer each, given before the run. Standard output and standard error are kept, and
   read after it. No thread starts. Nothing proves this file. Each function keeps what the kit's libc/src and os/src say of the C function of its
   name, which the proofs take as given: the heap gives room that nobody else has, rattle_arg returns -2 if a word does not fit, and a read or a
   write moves a beginning. */
typedef unsigned long size;
typedef unsigned char byte;
typedef unsigned __int128 wide;

enum { WRONG_FILE = 9, NO_THREAD = 11, NO_ROOM = 12, NO_SEEK = 29, NO_CALL = 38, NO_SUCH = 3 }; /* error numbers of C */

extern byte __heap_base;
__attribute__((import_module("page"), import_name("exit"))) _Noreturn void page_exit(int status);
int page_program(void); /* the program's own main */

/* ---- 128 bits in halves: what the compiler calls for products and shifts */

typedef union {
  wide whole;
  struct {
    size low, high;
  };
} halves;

wide __multi3(wide x, wide y) {
  halves a = {x}, b = {y}, product;
  size a_low = (unsigned)a.low, a_high = a.low >> 32, b_low = (unsigned)b.low, b_high = b.low >> 32;
  size low = a_low * b_low, middle = a_high * b_low + (low >> 32), other = a_low * b_high + (unsigned)middle;
  product.low = other << 32 | (unsigned)low;
  product.high = a_high * b_high + (middle >> 32) + (other >> 32) + a.low * b.high + a.high * b.low;
  return product.whole;
}

wide __ashlti3(wide x, int count) {
  halves a = {x}, shifted = {x};
  if (count >= 64) {
    shifted.high = a.low << (count - 64);
    shifted.low = 0;
  } else if (count > 0) {
    shifted.high = a.high << count | a.low >> (64 - count);
    shifted.low = a.low << count;
  }
  return shifted.whole;
}

wide __lshrti3(wide x, int count) {
  halves a = {x}, shifted = {x};
  if (count >= 64) {
    shifted.low = a.high >> (count - 64);
    shifted.high = 0;
  } else if (count > 0) {
    shifted.low = a.low >> count | a.high << (64 - count);
    shifted.high = a.high >> count;
  }
  return shifted.whole;
}

/* ---- the heap. A block is of a class, and has 2^class bytes; its first 16 bytes hold the class. A freed block goes to the list of its class. */

enum { CLASSES = 40, LEAST_CLASS = 5, HEAD = 16, PAGE = 65536 };
static byte *heap_end, *freed[CLASSES];

/* Makes the memory reach to an address. Growing is dear, so it grows by a quarter at least, if there is so much. */
static int reaches(size end) {
  size have = __builtin_wasm_memory_size(0) * PAGE;
  if (end <= have) return 1;
  size need = (end - have + PAGE - 1) / PAGE, quarter = have / PAGE / 4;
  if (quarter > need && __builtin_wasm_memory_grow(0, quarter) != (size)-1) return 1;
  return __builtin_wasm_memory_grow(0, need) != (size)-1;
}

static byte *new_block(int class) {
  if (!heap_end) heap_end = (byte *)(((size)&__heap_base + HEAD - 1) & ~(size)(HEAD - 1));
  byte *block = heap_end;
  if (!reaches((size)block + ((size)1 << class))) return 0;
  heap_end = block + ((size)1 << class);
  return block;
}

/* Returns room for some bytes, or 0. */
static byte *take(size bytes) {
  int class = LEAST_CLASS;
  if (bytes > (size)1 << 32) return 0;
  while ((size)1 << class < bytes + HEAD) class++;
  byte *block = freed[class];
  if (block)
    freed[class] = *(byte **)block;
  else if (!(block = new_block(class)))
    return 0;
  *(size *)block = class;
  return block + HEAD;
}

static size room_of(byte *p) { return ((size)1 << *(size *)(p - HEAD)) - HEAD; }

static void give(byte *p) {
  byte *block = p - HEAD;
  size class = *(size *)block;
  *(byte **)block = freed[class];
  freed[class] = block;
}

struct tried {
  size ok;
  byte *p;
};

struct tried rattle_alloc(size bytes, size align) {
  byte *p = align > HEAD ? 0 : take(bytes);
  return (struct tried){p != 0, p};
}

struct tried rattle_realloc(byte *p, size kept, size bytes, size align) {
  if (bytes <= room_of(p)) return (struct tried){1, p};
  byte *moved = align > HEAD ? 0 : take(bytes);
  if (!moved) return (struct tried){0, p};
  __builtin_memcpy(moved, p, kept);
  give(p);
  return (struct tried){1, moved};
}

void rattle_dealloc(byte *p) { give(p); }
void *malloc(size bytes) { return take(bytes); }
void free(void *p) {
  if (p) give(p);
}

/* ---- input, words and output */

struct kept {
  byte *at;
  size length, room;
};
static struct kept input, words, output[2]; /* output[0] is standard output */
static size input_at;
static int error_number;

static byte *kept_room(struct kept *kept, size bytes) {
  *kept = (struct kept){take(bytes), bytes, bytes};
  return kept->at;
}

/* What the page calls: room for the input and for the words, the run, and what it left on a descriptor, 1 or 2. */
byte *page_input(size bytes) { return kept_room(&input, bytes); }
byte *page_words(size bytes) { return kept_room(&words, bytes); }
byte *page_kept(int fd) { return output[fd - 1].at; }
size page_kept_len(int fd) { return output[fd - 1].length; }
int page_main(void) { return page_program(); }

int rattle_errno(void) { return error_number; }
void rattle_set_errno(int error) { error_number = error; }

static long fails(int error) {
  error_number = error;
  return -1;
}

/* Puts word i at the start of a buffer. Returns its length, -1 if there is no such word, and -2 if it does not fit; then the buffer is full. Each
   word is ended by a 0. */
long rattle_arg(size i, byte *buffer, size room) {
  size start = 0, length;
  for (; start < words.length; start += length + 1, i--) {
    for (length = 0; words.at[start + length] != 0; length++) {
    }
    if (i > 0) continue;
    __builtin_memcpy(buffer, words.at + start, length < room ? length : room);
    return length <= room ? (long)length : -2;
  }
  return -1;
}
long rattle_env(const byte *name, byte *buffer, size room) { return -1; }
long rattle_env_at(size i, byte *buffer, size room) { return -1; }

long read(int fd, byte *buffer, size room) {
  size left = input.length - input_at, count = left < room ? left : room;
  if (fd != 0) return fails(WRONG_FILE);
  __builtin_memcpy(buffer, input.at + input_at, count);
  input_at += count;
  return count;
}

/* Makes a kept output have room for more bytes; it says whether there is memory. */
static int has_room(struct kept *to, size more) {
  if (to->length + more <= to->room) return 1;
  size room = (to->length + more) * 2 + 4096;
  byte *moved = take(room);
  if (!moved) return 0;
  __builtin_memcpy(moved, to->at, to->length);
  if (to->at) give(to->at);
  to->at = moved;
  to->room = room;
  return 1;
}

long write(int fd, const byte *bytes, size count) {
  if (fd != 1 && fd != 2) return fails(WRONG_FILE);
  struct kept *to = &output[fd - 1];
  if (!has_room(to, count)) return fails(NO_ROOM);
  __builtin_memcpy(to->at + to->length, bytes, count);
  to->length += count;
  return count;
}
long __write(int fd, const byte *bytes, size count) { return write(fd, bytes, count); }
long lseek(int fd, long offset, int whence) { return fails(NO_SEEK); }

/* ---- the process, and threads that do not start */

_Noreturn void _exit(int status) { page_exit(status); }
_Noreturn void abort(void) { __builtin_trap(); }
long syscall(long number, void *a, long b, long c, void *d, ...) { return fails(NO_CALL); }
void *__sysv_signal(int number, void *handler) { return 0; }
int sched_yield(void) { return 0; }
int pthread_create(size *thread, void *attributes, void *(*start)(void *), void *of) { return NO_THREAD; }
int pthread_join(size thread, void **value) { return NO_SUCH; }
int pthread_detach(size thread) { return NO_SUCH; }
size pthread_self(void) { return 1; }
int pthread_attr_init(void *attributes) { return 0; }
int pthread_attr_destroy(void *attributes) { return 0; }
int pthread_attr_setguardsize(void *attributes, size bytes) { return 0; }
int pthread_attr_setstacksize(void *attributes, size bytes) { return 0; }

/* The processor has all that the code asks for. */
const void *__x86_get_cpuid_feature_leaf(unsigned leaf) {
  static unsigned all[8] = {-1u, -1u, -1u, -1u, -1u, -1u, -1u, -1u};
  return all;
}
