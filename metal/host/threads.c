/* Processors, threads, and their waits. A thread belongs to one processor from its first turn to its last. Each processor's own loop gives it to those of
   its threads that can go on, by turns. A thread gives it back by a trap where it yields, waits or ends; a timer takes it where a slice of time ends. */
#include "host.h"

#ifndef SLICE
#define SLICE 2000000 /* nanoseconds, about */
#endif

long main(void); /* the program's own */

_Static_assert(sizeof(struct processor) == 2 * PAGE, "each start.S counts on it");
struct processor processors[MOST_PROCESSORS];
unsigned processor_count;
_Atomic size wakes;
static struct thread threads[MOST_THREADS]; /* the first is the program's main */
static int threads_lock;
static _Atomic unsigned up_count = 1; /* processors that have begun */

/* Ends each wait, and the halt of each other processor, or its next halt. */
int wake_all(void) {
  wakes++;
  if (up_count > 1) end_halts();
  return 0;
}

/* ---- a processor's own loop. Each trap begins it anew, on an empty stack */

static int can_go_on(const struct thread *it, int state) { return state == READY || (state == WAITS && it->wakes != wakes); }

/* The next thread of this processor that can go on, behind the one that ran last, or 0. Its state is looked at before `at` and again after: while another
   processor gets a record that was this one's, `at` is old until it is READY, and while this one gets another's, the state is old until `at` is written. */
static struct thread *next_of(const struct processor *own) {
  unsigned behind = own->last ? own->last - threads + 1 : 0;
  for (unsigned i = 0; i < stack_count; i++) {
    struct thread *it = &threads[(behind + i) % stack_count];
    int state = it->state;
    if (can_go_on(it, state) && it->at == own && it->state == state) return it;
  }
  return 0;
}

/* Whether each processor halts, and no thread can go on. */
static int is_stuck(void) {
  for (unsigned i = 0; i < processor_count; i++)
    if (!processors[i].is_halted) return 0;
  for (struct thread *it = threads; it < threads + MOST_THREADS; it++)
    if (it->state == ENDS || can_go_on(it, it->state)) return 0;
  return 1;
}

/* Halts until an interrupt, also one that came since the loop began. It does not return here: the loop begins anew. */
static _Noreturn void halt(struct processor *own) {
  if (is_listening && own == processors) listen();
  own->tables.frame_end = &own->halted + 1;
  interrupts_on();
  for (;;) idle();
}

/* Only here, where nothing runs on its stack any more, is a thread told to have ended. */
static void end(struct thread *it) {
  lock(&threads_lock);
  it->at->threads--;
  it->state = it->is_detached ? RESTS : ENDED;
  unlock(&threads_lock);
  wake_all();
}

/* Runs a thread until a trap. */
static _Noreturn void run(struct processor *own, struct thread *it) {
  it->state = READY;
  own->runs = own->last = it;
  own->tables.frame_end = &it->frame + 1;
  set_timer(SLICE);
  resume(&it->frame);
}

/* What each trap leads to, and the begin of a processor: the next thread runs, or the processor halts. An interrupt that was to end a halt leaves a thread its
   processor. Where each of its threads yielded, one after the other, it waits for others: it halts for a moment, since a host of machines may give them none
   meanwhile. The last processor that halts, with no thread that can go on, tells it: nobody is left who could wake one, unless somebody types. Where a wake
   came while it looked, another went on, and will look when it halts. */
_Noreturn void work(enum reason why) {
  enum { MOMENT = 20000 };
  struct processor *own = me();
  struct thread *it = own->runs;
  if (it && why == WOKEN) resume(&it->frame);
  own->runs = 0;
  own->is_halted = 0;
  own->yields = why == GAVE_BACK && it->state == READY ? own->yields + 1 : 0;
  if (it && it->state == ENDS) end(it);
  if (own == processors) take_typed();
  if (own->yields > 0 && own->yields >= own->threads && up_count > 1) {
    set_timer(MOMENT);
    halt(own);
  }
  struct thread *next = next_of(own);
  if (next) run(own, next);
  size before = wakes;
  own->is_halted = 1;
  if (!is_listening && is_stuck() && wakes == before) ends("host: every thread waits", ALL_WAIT);
  halt(own);
}

/* What a thread does on its processor: it gives that back until its next turn. An interrupt that comes first does so, too. */
int give_back(enum state state) {
  me()->runs->state = state;
  leave();
  return 0;
}

/* A thread that leaves then waits for the next wake behind those that had come. Who looks at a word looks at their number first: a wake that comes in between
   ends the wait. */
void waits(size had_come) {
  me()->runs->wakes = had_come;
  me()->runs->state = WAITS;
}

void pthread_exit(void *value) {
  me()->runs->value = value;
  give_back(ENDS);
}

static void begin(void) { pthread_exit(me()->runs->start(me()->runs->value)); }

/* ---- processors: the first one's record is the first, and each other has its own from the time that it is named */

void has_processor(unsigned number) {
  if (processor_count == MOST_PROCESSORS || (processor_count > 0 && number == processors[0].number)) return;
  struct processor *it = &processors[processor_count++];
  it->stack_end = (byte *)(it + 1);
  it->self = it;
  it->number = number;
  it->is_halted = 1;
  it->tables.frame_end = &it->halted + 1;
}

/* Where start.S goes with another processor and its record. */
_Noreturn void other_processor(struct processor *it) {
  set_tables(it);
  up_count++;
  work(WOKEN);
}

/* Makes the others begin, the first time that it is called, and calls them until all have come, for some seconds. Until then the program runs on one. */
static void begin_others(void) {
  enum { ROUNDS = 200, ROUND = 20000 };
  for (int round = 0; round < ROUNDS && up_count < processor_count; round++) {
    call_others();
    for (int i = 0; i < ROUND && up_count < processor_count; i++) microsecond();
  }
  if (up_count < processor_count) ends("host: a processor did not start", NO_PROCESSOR);
}

/* ---- threads */

/* Gives a record to a processor. Its state is written last. */
static void starts(struct thread *it, struct processor *at, void *(*start)(void *), void *value) {
  it->frame = (struct frame){FIRST_FRAME, .at = (size)begin, .stack = stacks + (it - threads + 1) * STACK_BYTES - PUSHED_BY_CALL};
  it->start = start;
  it->value = value;
  it->error_number = it->is_detached = 0;
  it->at = at;
  at->threads++;
  it->state = READY;
}

void *run_program(void *none) { _exit(main()); }

/* The first processor begins with the program, or with the shell. */
_Noreturn void begin_program(void) {
  take_first_word();
  starts(&threads[0], processors, is_shell ? shell : run_program, 0);
  work(WOKEN);
}

/* The processor with the fewest threads, and of those the first. */
static struct processor *least_busy(void) {
  struct processor *best = processors;
  for (unsigned i = 1; i < processor_count; i++)
    if (processors[i].threads < best->threads) best = &processors[i];
  return best;
}

int pthread_attr_init(size *attributes) { return *attributes = 0; }
int pthread_attr_destroy(size *attributes) { return 0; }
int pthread_attr_setstacksize(size *attributes, size bytes) { return bytes <= STACK_BYTES ? 0 : INVALID; } /* each stack has so many */
int pthread_attr_setguardsize(size *attributes, size bytes) { return bytes <= GUARD_BYTES ? 0 : INVALID; } /* of them a guard */

int pthread_create(size *thread, const size *attributes, void *(*start)(void *), void *value) {
  unsigned i = 0;
  lock(&threads_lock);
  begin_others();
  while (i < stack_count && threads[i].state != RESTS) i++;
  if (i < stack_count) starts(&threads[i], least_busy(), start, value);
  unlock(&threads_lock);
  *thread = i + 1;
  return i < stack_count ? wake_all() : TRY_AGAIN;
}

int pthread_join(size thread, void **value) {
  struct thread *it = &threads[thread - 1];
  for (size had_come = wakes; it->state != ENDED; had_come = wakes) {
    waits(had_come);
    leave();
  }
  if (value) *value = it->value;
  it->state = RESTS;
  return 0;
}

int pthread_detach(size thread) {
  struct thread *it = &threads[thread - 1];
  lock(&threads_lock);
  it->is_detached = 1;
  if (it->state == ENDED) it->state = RESTS;
  unlock(&threads_lock);
  return 0;
}

size pthread_self(void) { return me()->runs - threads + 1; }

int sched_yield(void) { return give_back(READY); }

/* ---- errors, and the system calls that the program makes */

int rattle_errno(void) { return me()->runs->error_number; }
void rattle_set_errno(long error) { me()->runs->error_number = error; }

long fails(int error) {
  rattle_set_errno(error);
  return -1;
}

/* Linux's futex: a wait that ends at once where the word is not the number, and that may end at any time, and a wake of all that wait. It answers as
   Linux does: an error is its number, negative. A thread that has to wait does so when it gives its processor back. */
long call_system(long number, unsigned *word, long operation, long value) {
  enum { FUTEX = 202, WAIT = 0x80, WAKE = 0x81 };
  if (number != FUTEX || ((int)operation != WAIT && (int)operation != WAKE)) return -NO_CALL;
  if ((int)operation == WAKE) return wake_all();
  size had_come = wakes;
  if (__atomic_load_n(word, __ATOMIC_SEQ_CST) != (unsigned)value) return -TRY_AGAIN;
  waits(had_come);
  return 0;
}
long syscall(long number, unsigned *word, long operation, long value) {
  long answer = call_system(number, word, operation, value);
  if (me()->runs->state == WAITS) leave();
  return answer < 0 ? fails(-answer) : answer;
}
