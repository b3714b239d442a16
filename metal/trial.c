/* In the place of the program, to try the host alone: full stacks, exceptions one at a time and at once, memory that is used up or joined again, threads by the
   hundred that take and give memory, threads that never yield, processors that never come, waits that nobody can end. Its first word says which; it ends with
   7 where all was right, and with 8 where not. Nothing proves this file. */
#include "host.h"

long rattle_arg(size number, void *buffer, size room);
void *malloc(size bytes);
void free(void *p);
int sched_yield(void), pthread_detach(size thread), rattle_errno(void);
long syscall(long number, unsigned *word, long operation, long value), lseek(long fd, long offset, long whence);
struct tried rattle_alloc(size bytes, size align);
void rattle_set_errno(long error);

enum { FUTEX = 202, WAIT = 0x80, WAKE = 0x81, ALL = 1 << 30, ROUNDS = 100, SECTIONS = 100, THREADS = 12, RIGHT = 7, WRONG = 8, MIB = 1 << 20 };
static volatile size kept;
static size counted;
static unsigned gate, met, wanted, seen_on[MOST_PROCESSORS * 8];
static byte last_letter;

__attribute__((noinline)) static size deep(size frames) {
  volatile size here[4] = {frames};
  if (frames) here[1] = deep(frames - 1);
  return here[0] + here[1];
}

/* Returns once so many threads are here. */
static void meet(void) {
  __atomic_add_fetch(&met, 1, __ATOMIC_SEQ_CST);
  while (__atomic_load_n(&met, __ATOMIC_SEQ_CST) < wanted) sched_yield();
}

static size begun(void *(*start)(void *), size of) {
  size thread, none = 0;
  if (pthread_create(&thread, &none, start, (void *)of)) __builtin_trap();
  return thread;
}

/* Starts so many threads and joins them; returns how many returned something. */
static size all_of(size count, void *(*start)(void *)) {
  size threads[THREADS], good = 0;
  void *value;
  wanted = count;
  for (size i = 0; i < count; i++) threads[i] = begun(start, i + 1);
  for (size i = 0; i < count; i++) {
    if (pthread_join(threads[i], &value)) __builtin_trap();
    good += value != 0;
  }
  return good;
}

/* ---- memory */

/* Some 0.7 MiB of a stack are there. */
static int is_deep(void) {
  kept = deep(11000);
  return RIGHT;
}
static int is_full(void) {
  kept = deep(1000000);
  return WRONG;
}
static void *fills_its_stack(void *of) {
  kept = deep(26000); /* more than a stack, and less than two */
  return of;
}
static int is_full_elsewhere(void) {
  all_of(1, fills_its_stack);
  return WRONG;
}

static int uses_all(void) {
  while (malloc(MIB)) kept++;
  return kept > 100 ? RIGHT : WRONG;
}

/* What is given back is joined: blocks of one size, and then as much room for one of all of it. */
static int joins_blocks(void) {
  enum { BLOCKS = 1000, BYTES = 100000 };
  static void *blocks[BLOCKS];
  for (int round = 0; round < 3; round++) {
    for (int i = 0; i < BLOCKS; i++)
      if (!(blocks[i] = malloc(BYTES + round * 1000))) return WRONG;
    for (int i = 0; i < BLOCKS; i++) free(blocks[i * 7 % BLOCKS]);
    void *whole = malloc((size)BLOCKS * BYTES);
    if (!whole) return WRONG;
    free(whole);
  }
  return RIGHT;
}

static int moves_overlap(void) {
  static byte text[64];
  int is_right = 1;
  for (int from = 0; from < 32; from++)
    for (int to = 0; to < 32; to++) {
      for (int i = 0; i < 64; i++) text[i] = i;
      memmove(text + to, text + from, 32);
      for (int i = 0; i < 64; i++) is_right &= text[i] == (i >= to && i < to + 32 ? i - to + from : i);
    }
  return is_right;
}

/* ---- exceptions */

static int is_bad(void) { __builtin_trap(); }
/* None yields, so that all are on their processors. */
static void *fails_with_others(void *of) {
  __atomic_add_fetch(&met, 1, __ATOMIC_SEQ_CST);
  while (__atomic_load_n(&met, __ATOMIC_SEQ_CST) < wanted);
  __builtin_trap();
}
static int is_bad_together(void) {
  all_of(4, fails_with_others);
  return WRONG;
}
static int divides_by_0(void) {
  kept = kept / kept;
  return WRONG;
}
static int writes_far(void) {
  *(volatile byte *)0x7FFFFFF000 = 1;
  return WRONG;
}
static int writes_at_0(void) {
  *(volatile byte *)(kept + 8) = 1;
  return WRONG;
}
static int calls_0(void) {
  ((void (*)(void))kept)();
  return WRONG;
}
static const volatile int constant = 5;
static int writes_constant(void) {
  *(volatile int *)&constant = 6;
  return WRONG;
}
static int writes_code(void) {
  *(volatile byte *)(size)is_deep = 0x90;
  return WRONG;
}
static int runs_data(void) {
  static volatile byte data[16];
  data[0] = 0xC3; /* a return */
  ((void (*)(void))(size)data)();
  return WRONG;
}

/* ---- threads */

/* Waits for the gate; then takes, marks and gives memory, and adds to a sum. */
static void *section_by_section(void *of) {
  while (!__atomic_load_n(&gate, __ATOMIC_SEQ_CST)) syscall(FUTEX, &gate, WAIT, 0);
  for (size i = 0; i < SECTIONS; i++) {
    volatile size *p = malloc(i * 50 + 8);
    *p = i + (size)of;
    __atomic_add_fetch(&counted, 1, __ATOMIC_SEQ_CST);
    if (i % 10 == 0) sched_yield();
    if (*p != i + (size)of) __builtin_trap();
    free((void *)p);
  }
  return of;
}

static int has_rounds(void) {
  size threads[THREADS];
  void *value;
  for (int round = 0; round < ROUNDS; round++) {
    __atomic_store_n(&gate, 0, __ATOMIC_SEQ_CST);
    for (size i = 0; i < THREADS; i++) threads[i] = begun(section_by_section, i);
    __atomic_store_n(&gate, 1, __ATOMIC_SEQ_CST);
    syscall(FUTEX, &gate, WAKE, ALL);
    for (size i = 0; i < THREADS; i++)
      if (pthread_join(threads[i], &value) || value != (void *)i) __builtin_trap();
  }
  return counted == ROUNDS * SECTIONS * THREADS ? RIGHT : WRONG;
}

/* Two of eight threads at a time are ended and begun again, so that records go from processor to processor. */
static void *waits_for(void *of) {
  while (!__atomic_load_n((unsigned *)of, __ATOMIC_SEQ_CST)) syscall(FUTEX, of, WAIT, 0);
  return of;
}
static int hands_over(void) {
  static unsigned go[8];
  size threads[8], seed = 12345;
  void *value;
  for (int i = 0; i < 8; i++) threads[i] = begun(waits_for, (size)&go[i]);
  for (int round = 0; round < 300; round++) {
    seed = seed * 6364136223846793005UL + 1442695040888963407UL;
    int two[2] = {seed >> 40 & 7, seed >> 50 & 7};
    for (int i = 0; i < 2 && two[0] != two[1]; i++) {
      __atomic_store_n(&go[two[i]], 1, __ATOMIC_SEQ_CST);
      syscall(FUTEX, &go[two[i]], WAKE, ALL);
    }
    for (int i = 0; i < 2 && two[0] != two[1]; i++)
      if (pthread_join(threads[two[i]], &value) || value != &go[two[i]]) return WRONG;
    for (int i = 0; i < 2 && two[0] != two[1]; i++) {
      go[two[i]] = 0;
      threads[two[i]] = begun(waits_for, (size)&go[two[i]]);
    }
  }
  return RIGHT;
}

/* The number of the processor that runs, by itself; a hart in supervisor mode has it from what SBI left. */
static unsigned own_number(void) {
#ifdef __x86_64__
  unsigned leaf = 1, it;
  __asm__ volatile("cpuid" : "+a"(leaf), "=b"(it) : : "ecx", "edx");
  return it >> 24;
#elif defined __aarch64__
  return own_name() % 256 + own_name() / 256 * 16;
#else
  return me()->number;
#endif
}

/* So many processors as the word's last digit says run THREADS threads, each some. */
static void *notes_processor(void *of) {
  meet();
  __atomic_store_n(&seen_on[own_number()], 1, __ATOMIC_SEQ_CST);
  return of;
}
static int is_spread(void) {
  unsigned count = 0;
  all_of(THREADS, notes_processor);
  for (unsigned i = 0; i < sizeof seen_on / sizeof *seen_on; i++) count += seen_on[i];
  return count == last_letter - '0' ? RIGHT : WRONG;
}

static void *keeps_its_error(void *of) {
  rattle_set_errno((long)of);
  meet();
  return (void *)(size)(rattle_errno() == (int)(size)of);
}
static int keeps_errors(void) { return all_of(4, keeps_its_error) == 4 ? RIGHT : WRONG; }

/* Two hundred detached threads are more than there are records. */
static void *nothing(void *of) { return of; }
static int ends_detached(void) {
  size thread, none = 0;
  for (int i = 0; i < 200; i++) {
    int tries = 0;
    while (pthread_create(&thread, &none, nothing, 0))
      if (tries++ == 1000) return WRONG;
      else sched_yield();
    pthread_detach(thread);
  }
  return RIGHT;
}

/* ---- slices of time: a thread that never yields lets its neighbour run; each keeps its registers, its floats and its red zone */

static void *waits_without_yield(void *of) {
  while (!__atomic_load_n(&gate, __ATOMIC_SEQ_CST)) kept++;
  return of;
}
static void *opens_late(void *of) {
  for (volatile int i = 0; i < 1000000; i++);
  __atomic_store_n(&gate, 1, __ATOMIC_SEQ_CST);
  return of;
}
static int shares_time(void) {
  size one = begun(waits_without_yield, 1), other = begun(opens_late, 2);
  pthread_join(one, 0);
  pthread_join(other, 0);
  return kept ? RIGHT : WRONG;
}

/* What lies beneath the stack is there after some slices, where the program may use it. */
static int keeps_red_zone(size of) {
  size is = of;
#ifdef __x86_64__
  size turns = 300000;
  __asm__ volatile("movq %0, -128(%%rsp); movq %0, -8(%%rsp); 1: decq %1; jnz 1b; movq -8(%%rsp), %0; addq -128(%%rsp), %0; shrq $1, %0"
                   : "+r"(is), "+r"(turns) : : "memory", "cc");
#endif
  return is == of;
}

static void *sums(void *of) {
  size sum = 0, again = 0;
  double half = 0, half_again = 0;
  for (size i = 0; i < 30000; i++) {
    byte *p = malloc(i % 900 + 1);
    sum += i * (size)of;
    half += (double)(size)of * 0.5;
    *(volatile byte *)p = 1;
    free(p);
  }
  for (size i = 0; i < 30000; i++) again += i * (size)of, half_again += (double)(size)of * 0.5;
  return (void *)(size)(sum == again && half == half_again && keeps_red_zone((size)of));
}
static int keeps_registers(void) {
  for (int round = 0; round < 3; round++)
    if (all_of(THREADS, sums) != THREADS) return WRONG;
  return RIGHT;
}

/* ---- waits that nobody ends, and processors that are not there */

static int waits_for_ever(void) {
  syscall(FUTEX, &gate, WAIT, 0);
  return WRONG;
}
static void *waits_at_gate(void *of) {
  while (!__atomic_load_n(&gate, __ATOMIC_SEQ_CST)) syscall(FUTEX, &gate, WAIT, 0);
  return of;
}
static int all_wait(void) {
  all_of(4, waits_at_gate);
  return WRONG;
}
static int calls_absent(void) {
  has_processor(250);
  begun(nothing, 0);
  return WRONG;
}

/* ---- what the program asks seldom */

#ifdef __x86_64__
/* The instruction syscall: its answers, and that it leaves each register but rax, rcx and r11, and the red zone. */
__attribute__((noinline)) static long instruction(long number, long value) {
  register long r8 __asm__("r8") = 8, r9 __asm__("r9") = 9, r10 __asm__("r10") = 10;
  long answer = number, rdx = value, rsi = WAIT, red;
  double xmm = 1.5;
  unsigned *rdi = &gate;
  __asm__ volatile("movq $77, -8(%%rsp); syscall; movq -8(%%rsp), %6"
                   : "+a"(answer), "+D"(rdi), "+S"(rsi), "+d"(rdx), "+r"(r8), "+r"(r9), "=&b"(red), "+r"(r10), "+x"(xmm)
                   :
                   : "rcx", "r11", "memory", "cc");
  int is_kept = rdi == &gate && rsi == WAIT && rdx == value && r8 == 8 && r9 == 9 && r10 == 10 && red == 77 && xmm == 1.5;
  return is_kept ? answer : 1;
}

/* Float registers keep what they had. */
__attribute__((noinline)) static int floats_are_kept(void) {
  double is = 0;
  long answer = FUTEX;
  __asm__ volatile("movq %2, %%xmm0; movq %%xmm0, %%xmm7; movq %%xmm0, %%xmm15; syscall; movq %%xmm7, %1; addsd %%xmm15, %1; addsd %%xmm0, %1"
                   : "+a"(answer), "=&x"(is)
                   : "r"(0x3FF8000000000000), "D"(&gate), "S"(WAIT + 0L), "d"(5L)
                   : "rcx", "r11", "memory", "cc", "xmm0", "xmm7", "xmm15");
  return is == 4.5;
}
static int has_instruction(void) {
  int is_right = instruction(FUTEX, 5) == -TRY_AGAIN && instruction(FUTEX + 1, 5) == -NO_CALL && floats_are_kept();
  return is_right ? RIGHT : WRONG;
}
#else
static int has_instruction(void) { return RIGHT; }
#endif

static int answers(void) {
  struct tried wide = rattle_alloc(100, 64);
  byte part[3];
  int is_right = lseek(0, 0, 1) == -1 && rattle_errno() == NO_SEEK && (!wide.ok || (size)wide.p % 64 == 0) && moves_overlap();
  is_right &= rattle_arg(0, part, sizeof part) == -2 && part[0] == 't' && part[1] == 'o' && part[2] == 'w'; /* the first word does not fit */
  is_right &= syscall(FUTEX, &gate, WAIT, 5) == -1 && rattle_errno() == TRY_AGAIN && write(3, 0, 0) == -1 && rattle_errno() == WRONG_FILE;
  return is_right ? RIGHT : WRONG;
}

static const struct { const char *word; int (*tried)(void); } trials[] = {
    {"deep", is_deep}, {"full", is_full}, {"full-elsewhere", is_full_elsewhere}, {"memory", uses_all}, {"joins", joins_blocks},
    {"bad", is_bad}, {"together", is_bad_together}, {"zero", divides_by_0}, {"far", writes_far}, {"at-0", writes_at_0}, {"calls-0", calls_0},
    {"constant", writes_constant}, {"code", writes_code}, {"data", runs_data}, {"rounds", has_rounds}, {"hand-over", hands_over}, {"errors", keeps_errors},
    {"detached", ends_detached}, {"slices", shares_time}, {"registers", keeps_registers}, {"wait", waits_for_ever}, {"all-wait", all_wait},
    {"absent", calls_absent}, {"instruction", has_instruction}, {"answers", answers}, {"spread1", is_spread}, {"spread3", is_spread}, {"spread8", is_spread}};

long main(void) {
  char word[32] = {0};
  long length = rattle_arg(1, word, sizeof word - 1);
  last_letter = length > 0 ? word[length - 1] : 0;
  for (unsigned i = 0; i < sizeof trials / sizeof *trials; i++)
    if (is_same(word, trials[i].word)) return trials[i].tried();
  return 9;
}
