/* The words of the command line, the console and serial lines that are the standard streams, and the end of a run. */
#include "host.h"

/* ---- words */

enum { MOST_WORDS = 1 << 18 };
static char words[MOST_WORDS]; /* each is ended by a 0 */
static size words_length;
static int is_typed; /* whether the first word says so of the standard input of the program, which has the words behind it */
int is_shell;

static void put_letter(char letter) {
  if (words_length == MOST_WORDS) ends("host: the words are too long", LONG_WORDS);
  words[words_length++] = letter;
}

/* Adds the words of a text: it is cut at spaces, but for those in ' or ", and a \ takes from the next letter what it means. */
void has_words(const char *text) {
  char quote = 0;
  int in_word = 0;
  for (; *text; text++) {
    int is_between = *text == ' ' && !quote;
    if (is_between && in_word) put_letter(0);
    in_word = !is_between;
    if (is_between) continue;
    if (quote ? *text == quote : *text == '\'' || *text == '"')
      quote = quote ? 0 : *text;
    else
      put_letter(*text == '\\' && text[1] ? *++text : *text);
  }
  if (in_word) put_letter(0);
}

/* Begins anew, with the program's name and the words of a text. */
void set_words(const char *text) {
  words_length = 0;
  has_words("tower ");
  has_words(text);
}

/* Word i, or 0 if there is no such word. */
static const char *word(size i) {
  size at = 0;
  for (; i > 0 && at < words_length; at++) i -= !words[at];
  return at < words_length ? words + at : 0;
}

/* Looks whether the first word is one for the host. */
void take_first_word(void) {
  const char *first = word(1);
  is_shell = first && is_same(first, "shell");
  is_typed = first && is_same(first, "typed");
  is_listening = is_shell || is_typed;
}

/* Puts word i at the start of a buffer. Returns its length, -1 if there is no such word, and -2 if it does not fit; then the buffer is full. */
long rattle_arg(size i, byte *buffer, size room) {
  const char *it = word(i > 0 && is_typed ? i + 1 : i);
  size length = 0;
  if (!it) return -1;
  while (it[length]) length++;
  memcpy(buffer, it, length < room ? length : room);
  return length <= room ? (long)length : -2;
}

/* ---- lines */

struct line lines[3];
static int lines_lock;

enum { MOST_TYPED = 1 << 10, CONTROL_D = 4, DELETE = 127 };
static byte typed[MOST_TYPED];
static _Atomic size typed_in, typed_out; /* how many bytes came in, and how many went out */
int is_listening, is_echoed;             /* whether anything is typed at all, and whether it is shown as it is read */

/* Sets a 16550 to 115,200 baud, 8 bits, no parity, with queues. What was typed before the boot is kept. */
struct line line_16550(size at) {
  static const byte settings[][2] = {{1, 0}, {3, 0x80}, {0, 1}, {1, 0}, {3, 3}, {2, 7}, {4, 0x0B}};
  struct line it = {at, 5, 0, 0x20, 1};
  if ((in(at + it.status) & 0x81) == it.has) typed[typed_in++] = in(at); /* no line is there where each bit is 1 */
  for (unsigned i = 0; i < sizeof settings / sizeof *settings; i++) out(at + settings[i][0], settings[i][1]);
  return it;
}

static int is(const struct line *it, byte what) { return (in(it->at + it->status) ^ it->flip) & what; }

/* A byte goes out once the line takes one, so that no line has to keep any. */
static void put(long fd, byte one) {
  while (!is(&lines[fd], lines[fd].takes)) pause();
  out(lines[fd].at, one);
  show(fd, one);
}

long write(long fd, const byte *bytes, size count) {
  if ((int)fd != 1 && (int)fd != 2) return fails(WRONG_FILE);
  lock(&lines_lock);
  for (size i = 0; i < count; i++) put((int)fd, bytes[i]);
  unlock(&lines_lock);
  return count;
}
long __write(long fd, const byte *bytes, size count) { return write(fd, bytes, count); }

/* Says a text without the lock, since whoever has it may be what failed. What the host says of its own goes to standard error. */
void say(long fd, const char *text) {
  for (; *text; text++) put(fd, *text);
}
void say_number(const char *what, size number, unsigned base) {
  char text[24] = {0}, *at = text + sizeof text - 1;
  do *--at = "0123456789abcdef"[number % base]; while (number /= base);
  say(2, what);
  say(2, at);
}

/* ---- standard input: what the loader left; or, where the first word is `typed` or `shell`, what is typed. An interrupt tells of it. It goes from the line's
   own queue, which is short, to a longer one, whenever the first processor goes through its loop; a read waits until there is some. */

/* Puts what was typed into the longer queue. The first processor alone does. */
void take_typed(void) {
  size before = typed_in;
  for (int one = 0; is_listening && one >= 0 && typed_in - typed_out < MOST_TYPED;) {
    one = in(lines[0].at + lines[0].status) != 0xFF && is(&lines[0], lines[0].has) ? in(lines[0].at) : key();
    typed[typed_in % MOST_TYPED] = one;
    typed_in += one >= 0;
  }
  if (typed_in != before) wake_all();
}

/* The first byte that was typed and that nobody read, or -1. */
static int next_typed(void) {
  if (typed_out == typed_in) return -1;
  byte one = typed[typed_out % MOST_TYPED];
  return one == '\r' ? '\n' : one;
}

/* Moves what was typed to a buffer, up to a control-D: an end of the input, which stays. One thread reads. */
static long read_typed(byte *buffer, size room) {
  size count = 0;
  for (size had_come = wakes; room > 0 && next_typed() < 0; had_come = wakes) {
    waits(had_come);
    leave();
  }
  for (; count < room && next_typed() >= 0 && next_typed() != CONTROL_D; typed_out++) buffer[count++] = next_typed();
  if (is_echoed) write(1, buffer, count);
  return count;
}

/* Takes the next byte, which may be a control-D. What deletes is a backspace. */
byte ask_key(void) {
  byte one = CONTROL_D;
  if (!read_typed(&one, 1)) typed_out++;
  return one == DELETE ? '\b' : one;
}

long read(long fd, byte *buffer, size room) {
  size left = input.end - input.start, count = left < room ? left : room;
  if ((int)fd != 0) return fails(WRONG_FILE);
  if (!input.end && is_listening) return read_typed(buffer, room);
  memcpy(buffer, (const byte *)input.start, count);
  input.start += count;
  return count;
}
long lseek(long fd, long offset, long whence) { return fails(NO_SEEK); }

/* ---- the end of a run. The first processor that ends it tells why, and any other stands still; it waits for a moment for what another writes */

static _Noreturn void stand_still(void) {
  interrupts_off();
  for (;;) idle();
}

/* From here on no other processor writes. A fault in what tells of one ends the run at once. */
static void begin_end(int status) {
  enum { MOMENT = 100000 };
  static struct processor *ender; /* the one that ends the run */
  struct processor *nobody = 0;
  interrupts_off();
  if (!__atomic_compare_exchange_n(&ender, &nobody, me(), 0, __ATOMIC_SEQ_CST, __ATOMIC_SEQ_CST)) {
    if (nobody == me()) power_off(status);
    stand_still();
  }
  for (int i = 0; i < MOMENT && __atomic_exchange_n(&lines_lock, 1, __ATOMIC_SEQ_CST); i++) pause();
}

/* Ends the run, with a word where there is one. QEMU may go on for a moment behind its end, so the status is told later: where nothing ended the machine. */
static _Noreturn void end_run(const char *why, int status) {
  enum { MOMENT = 300000 };
  say(2, why);
  power_off(status);
  for (int i = 0; i < MOMENT; i++) microsecond();
  say_number("status ", status, 10);
  say(2, "\n");
  stand_still();
}

_Noreturn void _exit(long status) {
  if (is_shell && (int)status < NO_ROOM) pthread_exit((void *)status);
  begin_end(status);
  end_run("", status);
}
_Noreturn void ends(const char *why, enum status status) {
  begin_end(status);
  say(2, why);
  end_run("\n", status);
}
_Noreturn void abort(void) { ends("host: abort", ABORTED); }

/* Tells of an exception, and where it was. */
_Noreturn void tell_trap(const char *what, size number, size error, const struct frame *it, size address) {
  begin_end(TRAPPED);
  say(2, "host: ");
  say(2, is_same(what, "a page fault") && is_guard(address) ? "a full stack" : what);
  say_number(", number ", number, 10);
  say_number(", error 0x", error, 16);
  say_number(", at 0x", it->at, 16);
  say_number(", stack 0x", it->stack, 16);
  say_number(", address 0x", address, 16);
  end_run("\n", TRAPPED);
}

/* ---- what else the program asks */

void *__sysv_signal(long number, void *handler) { return 0; } /* there are no signals */

/* What the program says of an error number. */
int __xpg_strerror_r(long error, char *text, size room) {
  static const char said[] = "an error of the host";
  memcpy(text, said, sizeof said < room ? sizeof said : room);
  return 0;
}
