/* The screen of a PC, 25 lines of 80 letters: a BIOS leaves one of letters, GRUB one of dots, for which there is a font. And the keyboard. */
#include "host.h"

#include "font.h"

enum { WIDE = 80, HIGH = 25, GREY = 0x0700, BRIGHT = 0x0F00 };
static unsigned short cells[WIDE * HIGH]; /* what is on the screen */
static byte *dots; /* of a screen of dots the first, or 0 */
static size dots_pitch, dot_bytes; /* from one line of dots to the next, from one dot to the next */

/* Shows a cell anew: of dots, in 8 times 16 of them. */
static void set_cell(unsigned at, unsigned short cell) {
  enum { LETTERS = 0xB8000, COLUMNS = 5, ACROSS = 8, DOWN = 16, WHITE = 0xFF, DIM = 0xAA };
  unsigned letter = cell & 0xFF, light = (cell & 0xFF00) == BRIGHT ? WHITE : DIM;
  const char *columns = font + COLUMNS * (letter > ' ' && letter <= '~' ? letter - ' ' : 0);
  if (cells[at] == cell) return;
  cells[at] = cell;
  if (!dots) ((volatile unsigned short *)LETTERS)[at] = cell;
  for (unsigned i = 0; dots && i < ACROSS * DOWN; i++) {
    unsigned x = i % ACROSS, y = i / ACROSS;
    volatile byte *dot = dots + (at / WIDE * DOWN + y) * dots_pitch + (at % WIDE * ACROSS + x) * dot_bytes;
    dot[0] = dot[1] = dot[2] = x < COLUMNS && columns[x] >> y / 2 & 1 ? light : 0;
  }
}

/* Takes away what the firmware showed, and its cursor. */
void clear_screen(void) {
  enum { PLACE = 0x3D4, VALUE = 0x3D5, CURSOR = 0xA, IS_OFF = 0x20 };
  out(PLACE, CURSOR);
  out(VALUE, IS_OFF);
  for (unsigned i = 0; i < WIDE * HIGH; i++) set_cell(i, GREY | ' ');
}

/* There is a screen of dots: its place, of two words, its pitch, its width, its height, the bits of a dot. One above 4 GiB, one that is too small, or
   one of fewer than three bytes a dot shows nothing. */
void has_screen(const unsigned *it) {
  if (it[1] || it[3] < WIDE * 8 || it[4] < HIGH * 16 || (it[5] & 0xFF) < 24) return;
  dots = (byte *)(size)it[0];
  dots_pitch = it[2];
  dot_bytes = (it[5] & 0xFF) / 8;
}

/* Shows a byte behind those that it has, and the place of the next; those of standard error are bright. */
void show(long fd, byte one) {
  static unsigned at;
  set_cell(at, one == '\n' || one == '\r' || one == '\b' ? GREY | ' ' : (fd == 2 ? BRIGHT : GREY) | one);
  at = one == '\b' ? at - (at > 0) : one == '\n' ? at + WIDE - at % WIDE : at + (one != '\r');
  for (; at >= WIDE * HIGH; at -= WIDE)
    for (unsigned i = 0; i < WIDE * HIGH; i++) set_cell(i, i < WIDE * (HIGH - 1) ? cells[i + WIDE] : GREY | ' ');
  set_cell(at, GREY | '_');
}

/* The letter of the key that was pressed last, or -1 where there is none. */
int key(void) {
  enum { DATA_PORT = 0x60, STATUS = 0x64, HAS_SOME = 1, NO_KEYBOARD = 0xFF, CONTROL = 0x1D, LEFT = 0x2A, RIGHT = 0x36, RELEASED = 0x80 };
  static const char plain[] = "\0\0331234567890-=\b\tqwertyuiop[]\n\0asdfghjkl;'`\0\\zxcvbnm,./\0*\0 ";
  static const char shifted[] = "\0\033!@#$%^&*()_+\b\tQWERTYUIOP{}\n\0ASDFGHJKL:\"~\0|ZXCVBNM<>?\0*\0 ";
  static int with_shift, with_control;
  while (in(STATUS) & HAS_SOME && in(STATUS) != NO_KEYBOARD) {
    byte code = in(DATA_PORT), at = code & ~RELEASED;
    int is_down = !(code & RELEASED);
    if (at == LEFT || at == RIGHT) with_shift = is_down;
    if (at == CONTROL) with_control = is_down;
    if (!is_down || at >= sizeof plain || !plain[at]) continue;
    return with_control ? plain[at] & 31 : (with_shift ? shifted : plain)[at];
  }
  return -1;
}
