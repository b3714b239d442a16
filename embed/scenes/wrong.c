/* Wrong calls, each with its named code. The messages that were sent before them are all there after them. */
#include "scene.h"
#include <pthread.h>
#include <sched.h>
#include <string.h>

static uint64_t words[9] = {7, 8, 9};
static size_t count;
static tower_body *const none[TOWER_CALLERS + 1];
static void no_calls(tower_caller *c, void *arg) { (void)c, (void)arg; }

static void openings(void) {
  tower *t = (tower *)words;
  is("open: no callers", tower_open(&t, (uint8_t[]){1}, 1, 0), TOWER_BAD_CALLERS);
  is("open: the handle is null then", t == 0, 1);
  is("open: a caller too many", tower_open(&t, (uint8_t[]){1}, 1, TOWER_CALLERS + 1), TOWER_BAD_CALLERS);
  is("open: 2^32 + 1 callers", tower_open(&t, (uint8_t[]){1}, 1, ((size_t)1 << 32) + 1), TOWER_BAD_CALLERS);
  is("open: as many callers as there are numbers", tower_open(&t, (uint8_t[]){1}, 1, (size_t)-1), TOWER_BAD_CALLERS);
  is("open: a buffer too many", tower_open(&t, (uint8_t[TOWER_BUFFERS + 1]){1}, TOWER_BUFFERS + 1, 1), TOWER_BAD_BUFFERS);
  is("open: 2^32 buffers", tower_open(&t, (uint8_t[TOWER_BUFFERS + 1]){1}, (size_t)1 << 32, 1), TOWER_BAD_BUFFERS);
  is("open: capacity 0", tower_open(&t, (uint8_t[]){1, 0}, 2, 1), TOWER_BAD_CAPACITY);
  is("open: a place too many", tower_open(&t, (uint8_t[]){TOWER_CAPACITY + 1}, 1, 1), TOWER_BAD_CAPACITY);
  is("open: capacity 255", tower_open(&t, (uint8_t[]){1, 255}, 2, 1), TOWER_BAD_CAPACITY);
  is("open: no place for the handle", tower_open(0, (uint8_t[]){1}, 1, 1), TOWER_NULL);
  is("open: no capacities", tower_open(&t, 0, 1, 1), TOWER_NULL);
}

static void runs(void) {
  tower_body *const one[] = {no_calls, 0};
  is("run: no bodies", tower_run((uint8_t[]){1}, 1, 1, 0, 0, 0), TOWER_NULL);
  is("run: a body is null", tower_run((uint8_t[]){1}, 1, 2, one, 0, 0), TOWER_NULL);
  is("run: no callers", tower_run((uint8_t[]){1}, 1, 0, none, 0, 0), TOWER_BAD_CALLERS);
  is("run: capacity 0", tower_run((uint8_t[]){0}, 1, 1, one, 0, 0), TOWER_BAD_CAPACITY);
  is("run: no args are needed", tower_run((uint8_t[]){1}, 1, 1, one, 0, 0), TOWER_OK);
  is("run: no buffers are needed", tower_run(0, 0, 1, one, 0, 0), TOWER_OK);
}

static void nulls(tower *t, tower_caller *c) {
  tower_caller *taken = c;
  is("take: no tower", tower_take(0, &taken), TOWER_NULL);
  is("take: the handle is null then", taken == 0, 1);
  is("take: no place for the handle", tower_take(t, 0), TOWER_NULL);
  is("send: no caller", tower_send(0, 0, words, 1), TOWER_NULL);
  is("send: no words given", tower_send(c, 0, 0, 1), TOWER_NULL);
  is("recv: no caller", tower_recv(0, 0, words, &count), TOWER_NULL);
  is("recv: no place for words", tower_recv(c, 0, 0, &count), TOWER_NULL);
  is("recv: no place for the count", tower_recv(c, 0, words, 0), TOWER_NULL);
  is("send_bytes: no bytes given", tower_send_bytes(c, 0, 0, 1), TOWER_NULL);
  is("recv_bytes: no place for bytes", tower_recv_bytes(c, 0, 0, &count), TOWER_NULL);
  is("close: no caller", tower_close(0, 0), TOWER_NULL);
  is("leave: no caller", tower_leave(0), TOWER_NULL);
  is("left: no tower", tower_left(0, 0, &count), TOWER_NULL);
  is("left: no place for the count", tower_left(t, 0, 0), TOWER_NULL);
  is("shut: no tower", tower_shut(0, 0), TOWER_NULL);
}

static void numbers(tower *t, tower_caller *c) {
  is("send: buffer 1 of 1", tower_send(c, 1, words, 1), TOWER_BAD_BUFFER);
  is("send: a buffer too many", tower_send(c, TOWER_BUFFERS, words, 1), TOWER_BAD_BUFFER);
  is("send: 256 is not buffer 0", tower_send(c, 256, words, 1), TOWER_BAD_BUFFER);
  is("send: 2^32 is not buffer 0", tower_send(c, (size_t)1 << 32, words, 1), TOWER_BAD_BUFFER);
  is("send: the last number", tower_send(c, (size_t)-1, words, 1), TOWER_BAD_BUFFER);
  is("recv: buffer 1 of 1", tower_recv(c, 1, words, &count), TOWER_BAD_BUFFER);
  is("close: buffer 1 of 1", tower_close(c, 1), TOWER_BAD_BUFFER);
  is("left: buffer 1 of 1", tower_left(t, 1, &count), TOWER_BAD_BUFFER);
  is("send: no words", tower_send(c, 0, words, 0), TOWER_NO_WORDS);
  is("send: no words at null", tower_send(c, 0, 0, 0), TOWER_NO_WORDS);
  is("send: 9 words", tower_send(c, 0, words, 9), TOWER_TOO_LONG);
  is("send: 2^32 words", tower_send(c, 0, words, (size_t)1 << 32), TOWER_TOO_LONG);
  is("send: as many words as there are numbers", tower_send(c, 0, words, (size_t)-1), TOWER_TOO_LONG);
  is("send_bytes: no bytes", tower_send_bytes(c, 0, words, 0), TOWER_NO_WORDS);
  is("send_bytes: 64 bytes", tower_send_bytes(c, 0, words, 64), TOWER_TOO_LONG);
  is("send_bytes: as many bytes as there are numbers", tower_send_bytes(c, 0, words, (size_t)-1), TOWER_TOO_LONG);
  is("send_bytes: buffer 1 of 1", tower_send_bytes(c, 1, words, 8), TOWER_BAD_BUFFER);
  is("recv_bytes: buffer 1 of 1", tower_recv_bytes(c, 1, words, &count), TOWER_BAD_BUFFER);
}

static void *waits(void *caller) { /* for a message in buffer 0, once the other thread is not in its call */
  uint64_t got[8];
  size_t many;
  int status = TOWER_BUSY;
  while (status == TOWER_BUSY) status = tower_recv(caller, 0, got, &many);
  is("a receive that waits", status, TOWER_OK);
  return 0;
}

/* Calls of a caller that another thread uses. */
static void busy(tower *t, tower_caller *a, tower_caller *b) {
  pthread_t thread;
  pthread_create(&thread, 0, waits, a);
  while (tower_close(a, 9) != TOWER_BUSY) sched_yield();
  is("send: in a call", tower_send(a, 0, words, 1), TOWER_BUSY);
  is("recv: in a call", tower_recv(a, 0, words, &count), TOWER_BUSY);
  is("recv_bytes: in a call", tower_recv_bytes(a, 0, words, &count), TOWER_BUSY);
  is("leave: in a call", tower_leave(a), TOWER_BUSY);
  is("shut: a caller is in a call", tower_shut(t, 0), TOWER_NOT_LEFT);
  is("send", tower_send(b, 0, words, 1), TOWER_OK);
  pthread_join(thread, 0);
}

/* Calls of a caller that has left. */
static void gone(tower_caller *c) {
  is("leave", tower_leave(c), TOWER_OK);
  is("leave: has left", tower_leave(c), TOWER_GONE);
  is("send: has left", tower_send(c, 0, words, 1), TOWER_GONE);
  is("recv: has left", tower_recv(c, 0, words, &count), TOWER_GONE);
  is("close: has left", tower_close(c, 0), TOWER_GONE);
  is("send_bytes: has left", tower_send_bytes(c, 0, words, 1), TOWER_GONE);
}

/* Of a closed buffer: its two messages are received, and then no more. */
static void closed(tower_caller *c) {
  is("close", tower_close(c, 0), TOWER_OK);
  is("close: closed", tower_close(c, 0), TOWER_OK);
  is("send: closed", tower_send(c, 0, words, 1), TOWER_CLOSED);
  is("send_bytes: closed", tower_send_bytes(c, 0, words, 1), TOWER_CLOSED);
  is("recv: closed, a message is left", tower_recv(c, 0, words, &count), TOWER_OK);
  is("its words", count == 3 && words[0] == 7 && words[1] == 8 && words[2] == 9, 1);
  is("left", tower_left(0, 0, &count), TOWER_NULL);
}

static void towers(void) {
  tower *t;
  tower_caller *a, *b, *third;
  tower_rest rest[1];
  memset(rest, 255, sizeof rest);
  is("open", tower_open(&t, (uint8_t[]){2}, 1, 2), TOWER_OK);
  is("take", tower_take(t, &a), TOWER_OK);
  is("take", tower_take(t, &b), TOWER_OK);
  is("take: all are taken", tower_take(t, &third), TOWER_NO_CALLER);
  is("take: the handle is null then", third == 0, 1);
  busy(t, a, b);
  is("send", tower_send(b, 0, words, 3), TOWER_OK);
  is("send", tower_send_bytes(b, 0, "bytes", 5), TOWER_OK);
  nulls(t, b);
  numbers(t, b);
  gone(a);
  is("shut: a caller has not left", tower_shut(t, 0), TOWER_NOT_LEFT);
  is("left", tower_left(t, 0, &count) + (int)count, TOWER_OK + 2);
  closed(b);
  is("left", tower_left(t, 0, &count) + (int)count, TOWER_OK + 1);
  is("leave", tower_leave(b), TOWER_OK);
  is("shut", tower_shut(t, rest), TOWER_OK);
  is("rest", rest[0].count, 1);
  is("its words", rest[0].messages[0].count, 1);
}

static void texts(void) {
  int named = 0;
  for (int status = -1; status < 200; status++) named += strcmp(tower_text(status), "unknown status") != 0;
  is("statuses with a text", named, 18);
  is("version", strcmp(tower_version(), TOWER_VERSION), 0);
}

int main(void) {
  openings();
  runs();
  towers();
  texts();
  return ended();
}
