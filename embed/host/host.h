/* The host of the proved program. Each thread of that program is a strand: a stack that a user's thread switches to for one call, and back from. A strand
   rests where the program asks its host what to do next. */
#ifndef HOST_H
#define HOST_H
#include "../tower.h"
#include <pthread.h>
#include <stdatomic.h>

/* Bytes of addresses of a caller's stack, of the stack of the program's main, and of the guard below each. Only what is touched takes memory. */
#ifndef STACK_BYTES
#define STACK_BYTES ((size_t)2 << 20)
#endif
enum { KEEPER_STACKS = 4, GUARD_BYTES = 4096, LINE = 128 };

enum state { NONE, READY, WAITS, JOINS, ASKS, ENDED };

/* A strand of the program: where it continues, and where the thread that runs it does. */
struct strand {
  void *stack, *resumer;
  char *room;
  size_t bytes;
  unsigned valgrind;
  void *(*start)(void *);
  void *value;
  struct tower *tower;
  struct strand *joins;
  enum state state;
};

/* A caller: its strand first, then the words that its last call returned and those that its next call asks. The counts are of messages by buffer. */
struct tower_caller {
  struct strand strand;
  const uint64_t *told;
  uint64_t *asked;
  atomic_int busy;
  int is_taken, is_gone;
  _Atomic uint64_t sent[TOWER_BUFFERS], received[TOWER_BUFFERS];
} __attribute__((aligned(LINE)));

struct tower {
  struct strand keeper;
  size_t callers, buffers, started;
  int is_open, status;
  unsigned forks;
  pthread_mutex_t taking;
  uint64_t plan[2 + TOWER_BUFFERS];
  tower_rest *rest;
  struct tower_caller caller[TOWER_CALLERS];
};

/* What a call asks of the program: the numbers of crate/src/asking.rt. */
enum { LEAVE, SEND, RECV, CLOSE };

struct strand *own(void);
int has_room(struct strand *s, size_t bytes);
void give_back(struct strand *s);
void resume(struct strand *s);
void suspend(struct strand *s, enum state state);
void run_all(struct tower *t);
int tower_program(int count, char **words); /* the proved program's main */

#endif
