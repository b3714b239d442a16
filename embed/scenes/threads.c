/* A caller goes from thread to thread between two calls; a thread with the least stack makes calls; a body ends its thread by pthread_exit; errno stays. */
#include "scene.h"
#include <errno.h>
#include <limits.h>
#include <pthread.h>
#include <stdlib.h>

enum { THREADS = 40 };
static tower_caller *passed;

static void *calls(void *at) {
  uint64_t words[8], k = (uintptr_t)at;
  size_t count;
  errno = ERANGE;
  is("send", tower_send(passed, 0, &k, 1), TOWER_OK);
  is("recv", tower_recv(passed, 0, words, &count), TOWER_OK);
  is("a wrong call", tower_send(passed, 3, words, 1), TOWER_BAD_BUFFER);
  is("the oldest number", words[0], k ? k - 1 : 1000);
  is("errno", errno, ERANGE);
  return 0;
}

static void *opens(void *none) {
  uint64_t words[8];
  size_t count;
  tower *t;
  tower_caller *c;
  is("open", tower_open(&t, (uint8_t[]){2}, 1, 16), TOWER_OK);
  is("take", tower_take(t, &c), TOWER_OK);
  is("send", tower_send_bytes(c, 0, "bytes", 5), TOWER_OK);
  is("recv", tower_recv_bytes(c, 0, words, &count), TOWER_OK);
  is("close", tower_close(c, 0), TOWER_OK);
  is("leave", tower_leave(c), TOWER_OK);
  is("shut", tower_shut(t, 0), TOWER_OK);
  return none;
}

/* Each call needs no more of its thread's stack than the least that a thread may have. */
static void opens_in_a_small_thread(const pthread_attr_t *least) {
  pthread_t thread;
  is("a thread", pthread_create(&thread, least, opens, 0), 0);
  pthread_join(thread, 0);
}

static void goes_round(void) {
  tower *t;
  pthread_attr_t least;
  is("open", tower_open(&t, (uint8_t[]){2}, 1, 1), TOWER_OK);
  is("take", tower_take(t, &passed), TOWER_OK);
  is("send", tower_send(passed, 0, (uint64_t[]){1000}, 1), TOWER_OK);
  pthread_attr_init(&least);
  pthread_attr_setstacksize(&least, PTHREAD_STACK_MIN);
  for (uintptr_t k = 0; k < THREADS; k++) {
    pthread_t thread;
    is("a thread", pthread_create(&thread, &least, calls, (void *)k), 0);
    pthread_join(thread, 0);
  }
  opens_in_a_small_thread(&least);
  is("leave", tower_leave(passed), TOWER_OK);
  is("shut", tower_shut(t, 0), TOWER_OK);
}

static void ends_its_thread(tower_caller *c, void *arg) {
  is("send", tower_send(c, 0, (uint64_t[]){4}, 1), TOWER_OK);
  if (arg) pthread_exit(0);
}

static void exits(void) {
  tower_rest rest[1];
  tower_body *const bodies[] = {ends_its_thread, ends_its_thread, ends_its_thread};
  is("run", tower_run((uint8_t[]){9}, 1, 3, bodies, (void *[]){0, &passed, &passed}, rest), TOWER_OK);
  is("rest", rest[0].count, 3);
}

int main(void) {
  goes_round();
  exits();
  return ended();
}
