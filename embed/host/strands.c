/* Strands: their stacks, and the switch from a thread's stack to a strand's and back. */
#define _GNU_SOURCE
#include "host.h"
#include <string.h>
#include <sys/mman.h>

#if defined __has_include
#if __has_include(<valgrind/valgrind.h>)
#include <valgrind/valgrind.h>
#endif
#endif
#ifndef VALGRIND_STACK_REGISTER
#define VALGRIND_STACK_REGISTER(from, to) 0
#define VALGRIND_STACK_DEREGISTER(id)
#endif

/* ThreadSanitizer sees no atomic access of the proved object. What one call leaves is there for the call that it wakes: these two say so. */
#if defined __SANITIZE_THREAD__
void __tsan_acquire(void *), __tsan_release(void *);
#define GIVES(t) __tsan_release(t)
#define GETS(t) __tsan_acquire(t)
#else
#define GIVES(t)
#define GETS(t)
#endif

enum { SAVED = 6 }; /* registers, as switch.S pushes them */

void tower_switch(void **left, void *to);

static __thread struct strand *running;

/* The strand that this thread runs. It is not inlined: a strand may continue in another thread than the one in which it was left. */
__attribute__((noinline)) struct strand *own(void) { return running; }

/* Runs a strand in this thread until it gives the thread back. */
void resume(struct strand *s) {
  struct strand *outer = running;
  running = s;
  GIVES(s->tower);
  tower_switch(&s->resumer, s->stack);
  GETS(s->tower);
  running = outer;
}

/* Gives the thread back. It returns when a thread runs the strand again. */
void suspend(struct strand *s, enum state state) {
  s->state = state;
  tower_switch(&s->stack, s->resumer);
}

static void begin(void) {
  struct strand *s = own();
  s->value = s->start(s->value);
  suspend(s, ENDED);
  __builtin_trap();
}

/* Maps a stack whose first frame begins the strand; 0 if there is no room. `ret` pops `begin`, and leaves the stack as a call would. */
int has_room(struct strand *s, size_t bytes) {
  char *room = mmap(0, bytes + GUARD_BYTES, PROT_READ | PROT_WRITE, MAP_PRIVATE | MAP_ANONYMOUS | MAP_NORESERVE | MAP_STACK, -1, 0);
  if (room == MAP_FAILED) return 0;
  s->room = room;
  s->bytes = bytes + GUARD_BYTES;
  s->valgrind = VALGRIND_STACK_REGISTER(room + GUARD_BYTES, room + s->bytes);
  void **top = (void **)(room + s->bytes) - 2;
  top[0] = (void *)begin;
  top[1] = 0;
  s->stack = top - SAVED;
  s->state = READY;
  return mprotect(room, GUARD_BYTES, PROT_NONE) == 0;
}

void give_back(struct strand *s) {
  if (!s->room) return;
  VALGRIND_STACK_DEREGISTER(s->valgrind);
  munmap(s->room, s->bytes);
}

static int can_run(const struct strand *s) { return s->state == READY || s->state == WAITS || (s->state == JOINS && s->joins->state == ENDED); }

/* Runs the tower's strands in this thread until each has ended, asks its host, or joins one of these. */
void run_all(struct tower *t) {
  for (size_t idle = 0, k = 0; idle <= t->started; k++) {
    size_t at = k % (t->started + 1);
    struct strand *s = at ? &t->caller[at - 1].strand : &t->keeper;
    idle = can_run(s) ? 0 : idle + 1;
    if (!idle) resume(s);
  }
}
