/* In place of the proved program: tries the host alone. It does what that program does, with its own buffers:
   -DENDS=1 ends before it opens, as on a processor that lacks an instruction. */
#include <pthread.h>
#include <stdint.h>
#include <stdlib.h>
#include <string.h>
#include "tower.h"

#ifndef ENDS
#define ENDS 0
#endif
enum { WORDS = TOWER_WORDS, MESSAGES = TOWER_CAPACITY, BUFFERS = TOWER_BUFFERS, CALLERS = TOWER_CALLERS };
enum { PLAN = 2 + BUFFERS, TOLD = 2 + WORDS, ASKED = 3 + WORDS, LEFT = BUFFERS * (1 + MESSAGES * (1 + WORDS)) };

void tower_host_plan(uint64_t *, size_t);
void tower_host_next(uint64_t, const uint64_t *, size_t, uint64_t *, size_t);
void tower_host_left(const uint64_t *, size_t);
void tower_host_end(uint64_t);
void tower_host_exit(int);
int tower_host_create(pthread_t *, const void *, void *(*)(void *), void *);
int tower_host_join(pthread_t, void **);
int tower_host_yield(void);

struct message {
  uint64_t count, words[WORDS];
};
struct ring {
  int lock, capacity, first, count, closed;
  struct message messages[MESSAGES];
};
struct all {
  struct ring rings[BUFFERS];
  uint64_t plan[PLAN];
};
struct caller {
  struct all *all;
  uint64_t number;
};

static void lock(struct ring *r) {
  while (__atomic_exchange_n(&r->lock, 1, __ATOMIC_SEQ_CST)) tower_host_yield();
}

static void unlock(struct ring *r) { __atomic_store_n(&r->lock, 0, __ATOMIC_SEQ_CST); }

static int bad(const struct all *all, const uint64_t *asked) {
  if (asked[0] > 3) return 64;
  if (asked[1] >= all->plan[1]) return 65;
  return asked[0] != 1 ? 0 : !asked[2] ? 66 : asked[2] > WORDS ? 67 : 0;
}

/* Tries a call once; returns whether it took effect. */
static int tried(struct ring *r, const uint64_t *asked, uint64_t *told) {
  struct message *m;
  if (asked[0] == 3) return r->closed = 1;
  if (asked[0] == 1 && r->closed) return told[0] = 16, 1;
  if (asked[0] == 1 && r->count < r->capacity) {
    m = &r->messages[(r->first + r->count++) % r->capacity];
    m->count = asked[2];
    memcpy(m->words, asked + 3, sizeof m->words);
    return 1;
  }
  if (asked[0] == 1 || (!r->count && !r->closed)) return 0;
  if (!r->count) return told[0] = 16, 1;
  m = &r->messages[r->first];
  r->first = (r->first + 1) % r->capacity, r->count--;
  told[1] = m->count;
  memcpy(told + 2, m->words, sizeof m->words);
  return 1;
}

static void *run(void *at) {
  struct caller *c = at;
  uint64_t told[TOLD] = {0}, asked[ASKED];
  for (;;) {
    tower_host_next(c->number, told, TOLD, asked, ASKED);
    memset(told, 0, sizeof told);
    if (!asked[0]) return 0;
    told[0] = bad(c->all, asked);
    for (int is_done = told[0] != 0; !is_done;) {
      struct ring *r = &c->all->rings[asked[1]];
      lock(r);
      is_done = tried(r, asked, told);
      unlock(r);
      if (!is_done) tower_host_yield();
    }
  }
}

static int refused(struct all *all) {
  if (!all->plan[0] || all->plan[0] > CALLERS) return 68;
  if (all->plan[1] > BUFFERS) return 69;
  for (uint64_t b = 0; b < all->plan[1]; b++) {
    if (!all->plan[2 + b] || all->plan[2 + b] > MESSAGES) return 70;
    all->rings[b].capacity = all->plan[2 + b];
  }
  return 0;
}

static void tell_left(struct all *all) {
  uint64_t words[LEFT];
  uint64_t *at = words;
  for (uint64_t b = 0; b < all->plan[1]; b++) {
    struct ring *r = &all->rings[b];
    *at++ = r->count;
    for (int k = 0; k < r->count; k++) {
      struct message *m = &r->messages[(r->first + k) % r->capacity];
      *at++ = m->count;
      memcpy(at, m->words, m->count * sizeof *at);
      at += m->count;
    }
  }
  tower_host_left(words, at - words);
}

int main(void) {
  if (ENDS) tower_host_exit(126);
  struct all *all = calloc(1, sizeof *all);
  struct caller callers[CALLERS];
  pthread_t threads[CALLERS];
  tower_host_plan(all->plan, PLAN);
  uint64_t status = refused(all), started = 0;
  for (; !status && started < all->plan[0]; started++) {
    callers[started] = (struct caller){all, started};
    if (tower_host_create(&threads[started], 0, run, &callers[started])) abort();
  }
  for (uint64_t k = 0; k < started; k++) tower_host_join(threads[k], 0);
  if (!status) tell_left(all);
  tower_host_end(status);
  free(all);
  return 0;
}
