/* The structured form: a thread for each caller, joined before the call returns. */
#include "host.h"
#include <stddef.h>

struct start {
  pthread_mutex_t lock;
  pthread_cond_t given;
  int word; /* 1: run the bodies; 2: leave, since a thread could not be started */
};

struct body {
  tower_body *run;
  void *arg;
  tower_caller *caller;
  pthread_t thread;
  struct start *start;
};

static int word_of(struct start *s) {
  pthread_mutex_lock(&s->lock);
  while (!s->word) pthread_cond_wait(&s->given, &s->lock);
  int word = s->word;
  pthread_mutex_unlock(&s->lock);
  return word;
}

static void give(struct start *s, int word) {
  pthread_mutex_lock(&s->lock);
  s->word = word;
  pthread_cond_broadcast(&s->given);
  pthread_mutex_unlock(&s->lock);
}

static void leave_at_end(void *caller) { tower_leave(caller); }

/* The caller leaves also if the body ends its thread. */
static void *run_body(void *at) {
  struct body *b = at;
  pthread_cleanup_push(leave_at_end, b->caller);
  if (word_of(b->start) == 1) b->run(b->caller, b->arg);
  pthread_cleanup_pop(1);
  return 0;
}

/* Starts a thread for each caller, gives them the word, and joins them. */
static int run_bodies(tower *t, size_t callers, tower_body *const *bodies, void *const *args) {
  struct start start = {PTHREAD_MUTEX_INITIALIZER, PTHREAD_COND_INITIALIZER, 0};
  struct body body[TOWER_CALLERS];
  size_t started = 0;
  int status = TOWER_OK;
  for (; started < callers && !status; started += !status) {
    struct body *b = &body[started];
    *b = (struct body){.run = bodies[started], .arg = args ? args[started] : 0, .start = &start};
    tower_take(t, &b->caller);
    if (pthread_create(&b->thread, 0, run_body, b)) {
      tower_leave(b->caller);
      status = TOWER_NO_THREAD;
    }
  }
  give(&start, status ? 2 : 1);
  for (size_t k = 0; k < started; k++) pthread_join(body[k].thread, 0);
  return status;
}

int tower_run(const uint8_t *capacities, size_t buffers, size_t callers, tower_body *const *bodies, void *const *args, tower_rest *rest) {
  tower *t;
  if (callers && !bodies) return TOWER_NULL;
  for (size_t k = 0; k < callers && k < TOWER_CALLERS; k++)
    if (!bodies[k]) return TOWER_NULL;
  int status = tower_open(&t, capacities, buffers, callers);
  if (status) return status;
  status = run_bodies(t, callers, bodies, args);
  int shut = tower_shut(t, status ? 0 : rest);
  return status ? status : shut;
}
