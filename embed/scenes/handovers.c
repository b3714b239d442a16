/* Hand-overs under random delays: a number goes to and fro between two threads, each of which waits a random time before it sends, from nothing to past the
   time after which a receiver parks. A signal interrupts one of them each millisecond: it ends no call, and a call in its handler gets TOWER_BUSY.

   handovers [ROUNDS [quiet]]: so many rounds, without signals if a second word is given. */
#include "scene.h"
#include <pthread.h>
#include <signal.h>
#include <stdlib.h>
#include <sys/time.h>
#include <unistd.h>

static int rounds = 10000;
static tower_caller *interrupted;
static volatile sig_atomic_t signals, in_a_call;

/* It runs in the thread that uses the caller, in a call or between two. */
static void on_alarm(int number) {
  int status = tower_close(interrupted, 99);
  (void)number;
  signals++;
  in_a_call += status == TOWER_BUSY;
  is("a call in a handler", status == TOWER_BUSY || status == TOWER_BAD_BUFFER, 1);
}

static void alarms(int how) {
  sigset_t set;
  sigemptyset(&set);
  sigaddset(&set, SIGALRM);
  pthread_sigmask(how, &set, 0);
}

static void delay(unsigned *seed) {
  int kind = rand_r(seed) % 8;
  for (volatile int k = rand_r(seed) % (kind < 6 ? 300 : 30000); k > 0; k--) {
  }
  if (kind == 7 && rand_r(seed) % 20 == 0) usleep(rand_r(seed) % 400);
}

/* Receives from one buffer and sends one more to the other. */
static void pass(tower_caller *c, void *arg) {
  size_t from = (uintptr_t)arg, count = 0;
  unsigned seed = from + 1;
  uint64_t words[8] = {0};
  if (from == 1) interrupted = c, alarms(SIG_UNBLOCK);
  for (int k = 0; k < rounds; k++) {
    is("receive", tower_recv(c, from, words, &count), TOWER_OK);
    is("number", words[0], 2 * k + from);
    words[0]++;
    delay(&seed);
    is("send", tower_send(c, 1 - from, words, 1), TOWER_OK);
  }
  alarms(SIG_BLOCK);
}

static void first(tower_caller *c, void *arg) {
  (void)arg;
  is("first", tower_send(c, 0, (uint64_t[]){0}, 1), TOWER_OK);
}

int main(int words, char **word) {
  tower_rest rest[2];
  tower_body *const bodies[] = {pass, pass, first};
  struct itimerval each = {{0, 1000}, {0, 1000}}, never = {{0, 0}, {0, 0}};
  if (words > 1) rounds = atoi(word[1]);
  signal(SIGALRM, on_alarm);
  alarms(SIG_BLOCK);
  if (words < 3) setitimer(ITIMER_REAL, &each, 0);
  double began = seconds(CLOCK_MONOTONIC);
  is("run", tower_run((uint8_t[]){1, 1}, 2, 3, bodies, (void *[]){(void *)0, (void *)1, 0}, rest), TOWER_OK);
  setitimer(ITIMER_REAL, &never, 0);
  is("rest", rest[0].count + rest[1].count, 1);
  is("the last number", rest[0].messages[0].words[0], 2 * rounds);
  printf("%d hand-overs in %.1f s, %d signals, %d of them in a call\n", 2 * rounds, seconds(CLOCK_MONOTONIC) - began, (int)signals, (int)in_a_call);
  return ended();
}
