/* Messages per second through one buffer, for bench/embed.sh: over the tower, or with -DPLAIN over a mutex and two condition variables. It prints the rate,
   and how many processors were busy.

   embed PRODUCERS CONSUMERS CAPACITY SECONDS
   embed alone         a send and a receive by one caller, a rejected call, and an opening and an end for 16 callers: nanoseconds each */
#define _GNU_SOURCE
#include <pthread.h>
#include <stdatomic.h>
#include <stdbool.h>
#include <stdint.h>
#include <stdio.h>
#include <stdlib.h>
#include <string.h>
#include <sys/resource.h>
#include <time.h>

enum { MOST = 32 };
static unsigned producers, consumers, capacity;
static atomic_uint done;
static atomic_bool is_over;
static atomic_ullong sum, sent, received;

static double now(void) {
  struct timespec t;
  clock_gettime(CLOCK_MONOTONIC, &t);
  return t.tv_sec + t.tv_nsec / 1e9;
}

#ifdef PLAIN
struct message {
  size_t count;
  uint64_t words[8];
};
struct ring {
  pthread_mutex_t lock;
  pthread_cond_t room, items;
  struct message messages[MOST];
  unsigned first, count, is_closed;
};
static struct ring ring = {.lock = PTHREAD_MUTEX_INITIALIZER, .room = PTHREAD_COND_INITIALIZER, .items = PTHREAD_COND_INITIALIZER};
typedef void caller;

static int send_one(caller *c, const uint64_t *words, size_t count) {
  (void)c;
  pthread_mutex_lock(&ring.lock);
  while (ring.count == capacity && !ring.is_closed) pthread_cond_wait(&ring.room, &ring.lock);
  int is_closed = ring.is_closed;
  if (!is_closed) {
    struct message *m = &ring.messages[(ring.first + ring.count++) % capacity];
    m->count = count;
    memcpy(m->words, words, count * sizeof *words);
    pthread_cond_signal(&ring.items);
  }
  pthread_mutex_unlock(&ring.lock);
  return is_closed;
}

static int receive_one(caller *c, uint64_t *words, size_t *count) {
  (void)c;
  pthread_mutex_lock(&ring.lock);
  while (!ring.count && !ring.is_closed) pthread_cond_wait(&ring.items, &ring.lock);
  int is_there = ring.count != 0;
  if (is_there) {
    struct message *m = &ring.messages[ring.first];
    ring.first = (ring.first + 1) % capacity, ring.count--;
    *count = m->count;
    memcpy(words, m->words, m->count * sizeof *words);
    pthread_cond_signal(&ring.room);
  }
  pthread_mutex_unlock(&ring.lock);
  return !is_there;
}

static void close_all(caller *c) {
  (void)c;
  pthread_mutex_lock(&ring.lock);
  ring.is_closed = 1;
  pthread_cond_broadcast(&ring.room), pthread_cond_broadcast(&ring.items);
  pthread_mutex_unlock(&ring.lock);
}
#else
#include "tower.h"
typedef tower_caller caller;
static int send_one(caller *c, const uint64_t *words, size_t count) { return tower_send(c, 0, words, count); }
static int receive_one(caller *c, uint64_t *words, size_t *count) { return tower_recv(c, 0, words, count); }
static void close_all(caller *c) { tower_close(c, 0); }
#endif

static void run(caller *c, size_t number) {
  uint64_t words[8] = {0}, own = 0, many = 0;
  size_t count;
  if (number >= producers) {
    for (; !receive_one(c, words, &count); many++) own += words[0];
    sum -= own;
    received += many;
    return;
  }
  for (; !atomic_load_explicit(&is_over, memory_order_relaxed); many++) {
    words[0] = many;
    own += many;
    send_one(c, words, 1);
  }
  sum += own;
  sent += many;
  if (++done == producers) close_all(c);
}

/* Ends the sends after a time. */
static void *clocks(void *seconds) {
  double all = *(double *)seconds;
  struct timespec time = {all, 1e9 * (all - (time_t)all)};
  nanosleep(&time, 0);
  is_over = 1;
  return 0;
}

#ifdef PLAIN
static void *body(void *number) { return run(0, (uintptr_t)number), (void *)0; }

static int run_all(unsigned all) {
  pthread_t threads[MOST];
  for (uintptr_t k = 0; k < all; k++) pthread_create(&threads[k], 0, body, (void *)k);
  for (unsigned k = 0; k < all; k++) pthread_join(threads[k], 0);
  return 0;
}
static int alone(void) { return 2; }
#else
static void body(tower_caller *c, void *number) { run(c, (uintptr_t)number); }

static int run_all(unsigned all) {
  tower_body *bodies[MOST];
  void *numbers[MOST];
  for (uintptr_t k = 0; k < all; k++) bodies[k] = body, numbers[k] = (void *)k;
  return tower_run((uint8_t[]){capacity}, 1, all, bodies, numbers, 0);
}

static double opened(unsigned callers, unsigned many) {
  uint8_t capacities[TOWER_BUFFERS];
  memset(capacities, TOWER_CAPACITY, sizeof capacities);
  double began = now();
  for (unsigned k = 0; k < many; k++) {
    tower *t;
    if (tower_open(&t, capacities, TOWER_BUFFERS, callers)) exit(1);
    tower_shut(t, 0);
  }
  return (now() - began) / many;
}

static int alone(void) {
  enum { CALLS = 200000, OPENINGS = 100 };
  tower *t;
  tower_caller *c;
  uint64_t words[8] = {0};
  size_t count;
  if (tower_open(&t, (uint8_t[]){4}, 1, 1) || tower_take(t, &c)) return 1;
  double began = now();
  for (int k = 0; k < CALLS; k++) tower_send(c, 0, words, 1), tower_recv(c, 0, words, &count);
  double pair = now() - began;
  began = now();
  for (int k = 0; k < CALLS; k++) tower_send(c, 9, words, 1);
  double rejected = now() - began;
  tower_leave(c), tower_shut(t, 0);
  printf("%.0f %.0f %.0f\n", 1e9 * pair / CALLS, 1e9 * rejected / CALLS, 1e9 * opened(TOWER_CALLERS, OPENINGS));
  return 0;
}
#endif

int main(int words, char **word) {
  struct rusage used;
  if (words == 2 && !strcmp(word[1], "alone")) return alone();
  if (words != 5) return 2;
  producers = atoi(word[1]), consumers = atoi(word[2]), capacity = atoi(word[3]);
  double duration = atof(word[4]), began = now();
  pthread_t clock;
  pthread_create(&clock, 0, clocks, &duration);
  int status = run_all(producers + consumers);
  double took = now() - began;
  pthread_join(clock, 0);
  getrusage(RUSAGE_SELF, &used);
  double busy = used.ru_utime.tv_sec + used.ru_utime.tv_usec / 1e6 + used.ru_stime.tv_sec + used.ru_stime.tv_usec / 1e6;
  if (status || received != sent || sum) return printf("messages are lost, or status %d\n", status), 1;
  printf("%.0f %.2f\n", received / took, busy / took);
  return 0;
}
