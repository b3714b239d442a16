/* Messages of bytes: each length keeps its bytes and no other is written; messages of words among them are told apart. */
#include "scene.h"
#include <stdlib.h>
#include <string.h>

static tower_caller *c;
static unsigned char sent[TOWER_BYTES_ROOM], got[TOWER_BYTES_ROOM + 1];
static size_t count;

/* Fills with 0, with ones, or with bytes that look like lengths. */
static void fill(int kind) {
  for (int k = 0; k < TOWER_BYTES_ROOM; k++) sent[k] = kind == 0 ? 0 : kind == 1 ? 255 : kind == 2 ? rand() % 9 : rand();
}

static void goes_over(size_t length, int kind) {
  fill(kind);
  memset(got, 171, sizeof got);
  is("send", tower_send_bytes(c, 0, sent, length), TOWER_OK);
  is("recv", tower_recv_bytes(c, 0, got, &count), TOWER_OK);
  is("length", count, length);
  is("bytes", memcmp(sent, got, length), 0);
  is("no byte more", got[length], 171);
}

static void of_words(size_t length, uint64_t last) {
  uint64_t words[8] = {1, 2, 3, 4, 5, 6, 7, 8};
  words[length - 1] = last;
  is("send words", tower_send(c, 0, words, length), TOWER_OK);
  is("they are no bytes", tower_recv_bytes(c, 0, got, &count), TOWER_NOT_BYTES);
  is("all of them are written", count == 8 * length && !memcmp(words, got, count), 1);
}

int main(void) {
  tower *t;
  tower_rest rest[1];
  is("open", tower_open(&t, (uint8_t[]){3}, 1, 1), TOWER_OK);
  is("take", tower_take(t, &c), TOWER_OK);
  for (size_t length = 1; length <= TOWER_BYTES; length++)
    for (int kind = 0; kind < 12; kind++) goes_over(length, kind);
  for (size_t length = 1; length <= 8; length++) {
    of_words(length, ~0ull), of_words(length, (uint64_t)8 << 56);
    of_words(length, 6), of_words(length, ((uint64_t)3 << 56) + (1 << 24));
  }
  of_words(1, 0);
  uint64_t words[8];
  is("send bytes", tower_send_bytes(c, 0, "12345678", 8), TOWER_OK);
  is("they are two words", tower_recv(c, 0, words, &count) + (int)count, TOWER_OK + 2);
  is("the first has the bytes", memcmp(words, "12345678", 8), 0);
  is("leave", tower_leave(c), TOWER_OK);
  is("shut", tower_shut(t, rest), TOWER_OK);
  is("rest", rest[0].count, 0);
  return ended();
}
