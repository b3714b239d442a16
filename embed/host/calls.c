/* What C calls: a tower's opening and end, and a caller's calls. Each number that the user gives is judged by the proved program. Judged here are pointers,
   and which handle may be used. */
#include "host.h"
#include <errno.h>
#include <stdlib.h>
#include <string.h>

static atomic_uint forks;
static void count_fork(void) { atomic_fetch_add(&forks, 1); }

/* Sees to it that a child of this process counts one fork more; 0 if memory is out. A second handler does no harm. */
static int sees_forks(void) {
  static atomic_int is_registered;
  if (!atomic_load(&is_registered) && pthread_atfork(0, 0, count_fork)) return 0;
  atomic_store(&is_registered, 1);
  return 1;
}

static int is_foreign(const struct tower *t) { return t->forks != atomic_load(&forks); }

static void *run_program(void *none) {
  char name[] = "tower", *words[] = {name, 0};
  (void)none;
  tower_program(1, words);
  return 0;
}

static void free_tower(struct tower *t) {
  for (size_t k = 0; k < TOWER_CALLERS; k++) give_back(&t->caller[k].strand);
  give_back(&t->keeper);
  pthread_mutex_destroy(&t->taking);
  free(t);
}

/* A tower that the program has not seen; null if memory is out. If the program ends without a status, it has found that it cannot run here. */
static struct tower *new_tower(const uint8_t *capacities, size_t buffers, size_t callers) {
  struct tower *t = aligned_alloc(LINE, (sizeof *t + LINE - 1) / LINE * LINE);
  if (!t) return 0;
  memset(t, 0, sizeof *t);
  pthread_mutex_init(&t->taking, 0);
  t->status = TOWER_NO_PROCESSOR;
  t->forks = atomic_load(&forks);
  t->callers = callers < TOWER_CALLERS ? callers : TOWER_CALLERS;
  t->buffers = buffers;
  t->plan[0] = callers;
  t->plan[1] = buffers;
  for (size_t b = 0; b < buffers && b < TOWER_BUFFERS; b++) t->plan[2 + b] = capacities[b];
  t->keeper.tower = t;
  t->keeper.start = run_program;
  return t;
}

int tower_open(tower **opened, const uint8_t *capacities, size_t buffers, size_t callers) {
  if (!opened) return TOWER_NULL;
  *opened = 0;
  if (buffers && !capacities) return TOWER_NULL;
  int was = errno;
  struct tower *t = sees_forks() ? new_tower(capacities, buffers, callers) : 0;
  int status = t ? TOWER_OK : TOWER_NO_MEMORY;
  if (t && !has_room(&t->keeper, KEEPER_STACKS * STACK_BYTES)) status = TOWER_NO_MEMORY;
  if (!status) run_all(t);
  if (!status && t->keeper.state == ENDED) status = t->status;
  if (t && status) free_tower(t);
  errno = was;
  if (status) return status;
  t->is_open = 1;
  *opened = t;
  return TOWER_OK;
}

int tower_take(tower *t, tower_caller **taken) {
  if (!taken) return TOWER_NULL;
  *taken = 0;
  if (!t) return TOWER_NULL;
  if (is_foreign(t)) return TOWER_FORKED;
  pthread_mutex_lock(&t->taking);
  struct tower_caller *c = 0;
  for (size_t k = 0; k < t->callers && !c; k++)
    if (!t->caller[k].is_taken) c = &t->caller[k];
  if (c) c->is_taken = 1;
  pthread_mutex_unlock(&t->taking);
  *taken = c;
  return c ? TOWER_OK : TOWER_NO_CALLER;
}

/* Makes the caller this thread's, for one call. */
static int enter(struct tower_caller *c) {
  if (!c) return TOWER_NULL;
  if (is_foreign(c->strand.tower)) return TOWER_FORKED;
  if (atomic_exchange(&c->busy, 1)) return TOWER_BUSY;
  if (!c->is_gone) return TOWER_OK;
  atomic_store(&c->busy, 0);
  return TOWER_GONE;
}

static int leave(struct tower_caller *c, int status) {
  atomic_store(&c->busy, 0);
  return status;
}

/* Asks the program, in the caller's strand. It returns with the next question. */
static int ask(struct tower_caller *c, uint64_t what, uint64_t buffer, uint64_t count) {
  int was = errno;
  c->asked[0] = what;
  c->asked[1] = buffer;
  c->asked[2] = count;
  resume(&c->strand);
  errno = was;
  return (int)c->told[0];
}

static void count_one(_Atomic uint64_t *counts, size_t buffer) {
  atomic_store_explicit(&counts[buffer], atomic_load_explicit(&counts[buffer], memory_order_relaxed) + 1, memory_order_release);
}

/* Sends a message whose words are those of the bytes at `from`, as far as these go, and then `last`. */
static int send_words(struct tower_caller *c, size_t buffer, const void *from, size_t bytes, uint64_t count) {
  memset(c->asked + 3, 0, TOWER_WORDS * sizeof *c->asked);
  memcpy(c->asked + 3, from, bytes);
  int status = ask(c, SEND, buffer, count);
  if (status == TOWER_OK) count_one(c->sent, buffer);
  return status;
}

int tower_send(tower_caller *c, size_t buffer, const uint64_t *words, size_t count) {
  if (count && !words) return TOWER_NULL;
  int status = enter(c);
  size_t few = count < TOWER_WORDS ? count : TOWER_WORDS;
  return status ? status : leave(c, send_words(c, buffer, count ? words : &(uint64_t){0}, few * sizeof *words, count));
}

/* Receives a message, and copies its words; returns how many in *count. */
static int recv_words(struct tower_caller *c, size_t buffer, void *to, size_t *count) {
  int status = ask(c, RECV, buffer, 0);
  if (status) return status;
  count_one(c->received, buffer);
  *count = c->told[1];
  memcpy(to, c->told + 2, *count * sizeof *c->told);
  return TOWER_OK;
}

int tower_recv(tower_caller *c, size_t buffer, uint64_t *words, size_t *count) {
  if (!words || !count) return TOWER_NULL;
  int status = enter(c);
  return status ? status : leave(c, recv_words(c, buffer, words, count));
}

/* A message of n bytes has n / 8 + 1 words. Its last byte is n % 8: how many bytes of the last word are the message's. Those between are 0. */
int tower_send_bytes(tower_caller *c, size_t buffer, const void *bytes, size_t count) {
  unsigned char room[TOWER_BYTES_ROOM] = {0};
  if (count && !bytes) return TOWER_NULL;
  int status = enter(c);
  if (status) return status;
  size_t words = count ? count / 8 + 1 : 0;
  if (words && words <= TOWER_WORDS) {
    memcpy(room, bytes, count);
    room[words * 8 - 1] = count % 8;
  }
  return leave(c, send_words(c, buffer, room, sizeof room, words));
}

/* How many bytes these words are a message of: 0 if of none. */
static size_t bytes_in(const unsigned char *room, size_t words) {
  size_t last = 8 * words - 1, count = last - 7 + room[last];
  for (size_t k = count; k < last; k++)
    if (room[k]) return 0;
  return room[last] < 8 ? count : 0;
}

int tower_recv_bytes(tower_caller *c, size_t buffer, void *bytes, size_t *count) {
  unsigned char room[TOWER_BYTES_ROOM] = {0};
  if (!bytes || !count) return TOWER_NULL;
  int status = enter(c);
  if (status) return status;
  status = leave(c, recv_words(c, buffer, room, count));
  if (status) return status;
  size_t many = bytes_in(room, *count);
  *count = many ? many : 8 * *count;
  memcpy(bytes, room, *count);
  return many ? TOWER_OK : TOWER_NOT_BYTES;
}

int tower_close(tower_caller *c, size_t buffer) {
  int status = enter(c);
  return status ? status : leave(c, ask(c, CLOSE, buffer, 0));
}

/* The strand ends in this call. */
int tower_leave(tower_caller *c) {
  int status = enter(c), was = errno;
  if (status) return status;
  c->asked[0] = LEAVE;
  resume(&c->strand);
  c->is_gone = 1;
  errno = was;
  return leave(c, TOWER_OK);
}

/* Each caller counts what it has received only after its sender could: the receives are read first. */
int tower_left(const tower *t, size_t buffer, size_t *count) {
  if (!t || !count) return TOWER_NULL;
  if (is_foreign(t)) return TOWER_FORKED;
  if (buffer >= t->buffers) return TOWER_BAD_BUFFER;
  uint64_t sent = 0, received = 0;
  for (size_t k = 0; k < t->callers; k++) received += atomic_load(&t->caller[k].received[buffer]);
  for (size_t k = 0; k < t->callers; k++) sent += atomic_load(&t->caller[k].sent[buffer]);
  *count = sent > received ? sent - received : 0;
  return TOWER_OK;
}

/* Takes every caller, if each that is taken has left. */
static int take_all(struct tower *t) {
  int status = TOWER_OK;
  pthread_mutex_lock(&t->taking);
  for (size_t k = 0; k < t->callers; k++)
    if (t->caller[k].is_taken && (atomic_load(&t->caller[k].busy) || !t->caller[k].is_gone)) status = TOWER_NOT_LEFT;
  for (size_t k = 0; k < t->callers && !status; k++) t->caller[k].is_taken = 1;
  pthread_mutex_unlock(&t->taking);
  return status;
}

int tower_shut(tower *t, tower_rest *rest) {
  if (!t) return TOWER_NULL;
  if (is_foreign(t)) return TOWER_FORKED;
  int status = take_all(t), was = errno;
  if (status) return status;
  for (size_t k = 0; k < t->callers; k++)
    if (!t->caller[k].is_gone) tower_leave(&t->caller[k]);
  t->is_open = 0;
  t->rest = rest;
  run_all(t);
  free_tower(t);
  errno = was;
  return TOWER_OK;
}
