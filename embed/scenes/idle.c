/* Receivers wait until they are asleep, and so many seconds more: how much processor time that takes, and how long a message takes to arrive then.

   idle SECONDS RECEIVERS PERCENT [MOST]: a row fails if one receiver takes more of a processor, is not asleep after MOST seconds (60), or is awake in more
   than a tenth of the samples after that. A thread that only yields is ready to run, and not asleep, however little it gets of a busy machine. */
#include "scene.h"
#include <stdatomic.h>
#include <stdlib.h>
#include <string.h>
#include <unistd.h>

static int duration, receivers, patience = 60;
static double used, sent[TOWER_CALLERS];
static pid_t threads[TOWER_CALLERS];
static atomic_int next, started;

static void receive(tower_caller *c, void *arg) {
  uint64_t words[8];
  size_t count;
  (void)arg;
  threads[next++] = gettid();
  started++;
  is("receive", tower_recv(c, 0, words, &count), TOWER_OK);
  sent[words[0]] = seconds(CLOCK_MONOTONIC) - sent[words[0]];
}

static int is_asleep(pid_t thread) {
  char text[512];
  snprintf(text, sizeof text, "/proc/self/task/%d/stat", thread);
  FILE *file = fopen(text, "r");
  if (!file) return 0;
  text[fread(text, 1, sizeof text - 1, file)] = 0;
  fclose(file);
  const char *name_ends = strrchr(text, ')');
  return name_ends && name_ends[1] == ' ' && name_ends[2] == 'S';
}

static int awake(void) {
  int many = 0;
  for (int k = 0; k < receivers; k++) many += !is_asleep(threads[k]);
  return many;
}

/* Waits until the receivers are asleep, and samples them then. */
static void look(void) {
  double began = seconds(CLOCK_MONOTONIC);
  while (awake() && seconds(CLOCK_MONOTONIC) - began < patience) usleep(20000);
  is("receivers that wait fall asleep", awake(), 0);
  printf("asleep after %.2f s\n", seconds(CLOCK_MONOTONIC) - began);
  int many = 0, samples = 0;
  used = seconds(CLOCK_PROCESS_CPUTIME_ID);
  for (; samples < 20; samples++) {
    usleep(50000 * duration);
    many += awake();
  }
  used = seconds(CLOCK_PROCESS_CPUTIME_ID) - used;
  is("receivers that wait are asleep", 10 * many <= samples * receivers, 1);
}

static void send_late(tower_caller *c, void *arg) {
  (void)arg;
  while (started < receivers) usleep(1000);
  look();
  for (uint64_t k = 0; k < (uint64_t)receivers; k++) {
    usleep(20000);
    sent[k] = seconds(CLOCK_MONOTONIC);
    is("send", tower_send(c, 0, &k, 1), TOWER_OK);
  }
}

int main(int words, char **word) {
  if (words < 4) return 2;
  tower_body *bodies[TOWER_CALLERS];
  duration = atoi(word[1]), receivers = atoi(word[2]);
  if (words > 4) patience = atoi(word[4]);
  for (int k = 0; k < receivers; k++) bodies[k] = receive;
  bodies[receivers] = send_late;
  is("run", tower_run((uint8_t[]){4}, 1, receivers + 1, bodies, 0, 0), TOWER_OK);
  double most = 0, percent = 100 * used / duration / receivers;
  for (int k = 0; k < receivers; k++) most = sent[k] > most ? sent[k] : most;
  is("a receiver that waits is under so many hundredths of a processor", percent < atof(word[3]), 1);
  printf("%d waited %d s: %.3f %% of a processor each; the longest way of a message %.0f us\n", receivers, duration, percent, most * 1e6);
  return ended();
}
