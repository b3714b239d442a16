/* What the proved program calls in place of Linux's threads. objcopy gives these names to the symbols that its object refers to. */
#define _GNU_SOURCE
#include "host.h"
#include <errno.h>
#include <linux/futex.h>
#include <sched.h>
#include <string.h>
#include <sys/syscall.h>
#include <unistd.h>

void tower_host_plan(uint64_t *plan, size_t words) { memcpy(plan, own()->tower->plan, words * sizeof *plan); }

/* The strand rests here. The thread that runs it again has written what it asks. */
void tower_host_next(uint64_t number, const uint64_t *told, size_t told_words, uint64_t *asked, size_t asked_words) {
  struct tower_caller *c = (struct tower_caller *)own();
  (void)number, (void)told_words, (void)asked_words;
  c->told = told;
  c->asked = asked;
  suspend(&c->strand, ASKS);
}

/* Reads how many messages there are, and each: how many words, and those. Returns the place of the next buffer's. */
static const uint64_t *read_rest(tower_rest *rest, const uint64_t *at) {
  memset(rest, 0, sizeof *rest);
  rest->count = *at++;
  for (size_t k = 0; k < rest->count; k++) {
    tower_message *m = &rest->messages[k];
    m->count = *at++;
    memcpy(m->words, at, m->count * sizeof *at);
    at += m->count;
  }
  return at;
}

void tower_host_left(const uint64_t *left, size_t words) {
  struct tower *t = own()->tower;
  (void)words;
  for (size_t b = 0; t->rest && b < t->buffers; b++) left = read_rest(&t->rest[b], left);
}

void tower_host_end(uint64_t status) { own()->tower->status = (int)status; }

/* A thread of the program is the next caller's strand. */
int tower_host_create(pthread_t *thread, const void *attributes, void *(*start)(void *), void *value) {
  struct tower *t = own()->tower;
  (void)attributes;
  if (t->started == t->callers) return EAGAIN;
  struct strand *s = &t->caller[t->started].strand;
  if (!has_room(s, STACK_BYTES)) return EAGAIN;
  s->tower = t;
  s->start = start;
  s->value = value;
  *thread = ++t->started;
  return 0;
}

int tower_host_join(pthread_t thread, void **value) {
  struct strand *s = own(), *other = &s->tower->caller[thread - 1].strand;
  s->joins = other;
  while (other->state != ENDED) suspend(s, JOINS);
  if (value) *value = other->value;
  return 0;
}

pthread_t tower_host_self(void) {
  struct strand *s = own();
  return s == &s->tower->keeper ? TOWER_CALLERS + 1 : (pthread_t)((struct tower_caller *)s - s->tower->caller + 1);
}

/* The program ends: its strand does, and the process continues. */
_Noreturn void tower_host_exit(int status) {
  (void)status;
  suspend(own(), ENDED);
  __builtin_trap();
}

int tower_host_detach(pthread_t thread) { return (void)thread, 0; }
int tower_host_attributes_begin(void *attributes) { return (void)attributes, 0; }
int tower_host_attributes_end(void *attributes) { return (void)attributes, 0; }
int tower_host_guard(void *attributes, size_t bytes) { return (void)attributes, (void)bytes, 0; }
int tower_host_stack(void *attributes, size_t bytes) { return (void)attributes, (void)bytes, 0; }
void *tower_host_signal(int number, void *to) { return (void)number, (void)to, (void *)0; }
int tower_host_yield(void) { return sched_yield(); }

/* Linux's futex. While the tower opens or shuts, one thread runs all its strands: a strand that waits gives it to the next. */
long tower_host_syscall(long number, unsigned *word, long operation, long value, long timeout, long other, long mask) {
  struct strand *s = own();
  if (s->tower->is_open || number != SYS_futex || (operation & FUTEX_CMD_MASK) != FUTEX_WAIT)
    return syscall(number, word, operation, value, timeout, other, mask);
  if (__atomic_load_n(word, __ATOMIC_SEQ_CST) != (unsigned)value) return errno = EAGAIN, -1;
  suspend(s, WAITS);
  return 0;
}
