/* Two producers send numbered messages of three words to one buffer, with wrong calls in between; a consumer sees each producer's in order, and their sum. */
#include "scene.h"
#include <stdatomic.h>

#ifndef EACH
#define EACH 1000
#endif
static atomic_int done;

static void wrong_calls(tower_caller *c, const uint64_t *words) {
  is("buffer 2 of 2", tower_send(c, 2, words, 3), TOWER_BAD_BUFFER);
  is("buffer 2^32", tower_send(c, (size_t)1 << 32, words, 3), TOWER_BAD_BUFFER);
  is("no words", tower_send(c, 0, words, 0), TOWER_NO_WORDS);
  is("nine words", tower_send(c, 0, (uint64_t[9]){0}, 9), TOWER_TOO_LONG);
  is("null words", tower_send(c, 0, 0, 1), TOWER_NULL);
}

static void produce(tower_caller *c, void *arg) {
  uint64_t me = (uintptr_t)arg;
  for (uint64_t i = 0; i < EACH; i++) {
    uint64_t words[3] = {me, i, me * EACH + i};
    is("send", tower_send(c, 0, words, 3), TOWER_OK);
    if (i % 997 == 0) wrong_calls(c, words);
  }
  if (++done < 2) return;
  is("close", tower_close(c, 0), TOWER_OK);
  is("close again", tower_close(c, 0), TOWER_OK);
  is("send to a closed buffer", tower_send(c, 0, &me, 1), TOWER_CLOSED);
}

static void consume(tower_caller *c, void *arg) {
  uint64_t *sum = arg, words[8] = {0}, next[2] = {0, 0};
  size_t count = 0;
  while (tower_recv(c, 0, words, &count) == TOWER_OK) {
    is("words", count, 3);
    is("order", words[1], next[words[0] & 1]++);
    *sum += words[2];
  }
  is("first producer", next[0], EACH);
  is("second producer", next[1], EACH);
  is("receive from a closed buffer", tower_recv(c, 0, words, &count), TOWER_CLOSED);
  is("send 8 words", tower_send(c, 1, (uint64_t[]){1, 2, 3, 4, 5, 6, 7, 8}, 8), TOWER_OK);
  is("send all ones", tower_send(c, 1, (uint64_t[]){~0ull}, 1), TOWER_OK);
}

int main(void) {
  uint64_t sum = 0;
  tower_rest rest[2];
  tower_body *const bodies[] = {produce, produce, consume};
  is("run", tower_run((uint8_t[]){4, 2}, 2, 3, bodies, (void *[]){(void *)0, (void *)1, &sum}, rest), TOWER_OK);
  is("sum", sum, (uint64_t)2 * EACH * (2 * EACH - 1) / 2);
  is("rest of 0", rest[0].count, 0);
  is("rest of 1", rest[1].count, 2);
  is("its first message has 8 words", rest[1].messages[0].count, 8);
  is("the last word", rest[1].messages[0].words[7], 8);
  is("its second message has 1 word", rest[1].messages[1].count, 1);
  is("all ones", rest[1].messages[1].words[0] == ~0ull, 1);
  return ended();
}
