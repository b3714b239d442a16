/* Harts: their tables, traps, timers, and how the others begin, by the calls of SBI. */
#include "host.h"
extern byte trap[], start[];

_Static_assert(__builtin_offsetof(struct processor, number) == 40, "start.S counts on it");

/* ---- the calls of SBI: an extension, and a function of it; an error, or 0 */

enum { TIME = 0x54494D45, IPI = 0x735049, HSM = 0x48534D };
static long sbi(long extension, long function, long a, long b, long c) {
  register long a0 __asm__("a0") = a, a1 __asm__("a1") = b, a2 __asm__("a2") = c, a6 __asm__("a6") = function, a7 __asm__("a7") = extension;
  __asm__ volatile("ecall" : "+r"(a0), "+r"(a1) : "r"(a2), "r"(a6), "r"(a7) : "memory");
  return a0;
}

/* ---- interrupts: from another hart, of the timer, and of the first line. This one is on in a halt of the first hart alone, since it stays until its byte is
   taken */

enum { SOFTWARE = 1 << 1, TIMER = 1 << 5, EXTERNAL = 1 << 9, FLOATS = 1 << 13, LINE = 10 };
static volatile unsigned *plic(size place) { return (volatile unsigned *)(0x0C000000 + place); }
static size context(void) { return 2 * (size)processors[0].number + 1; }
static volatile unsigned *claim(void) { return plic(0x200004 + 0x1000 * context()); }

/* Ends the halt of each hart, or its next one if it is in none. Only one hart at a time asks for it: those that wait for a lock of the firmware's would use
   up their turns, where QEMU runs harts by turns. */
void end_halts(void) {
  enum { ALL = -1 };
  static int calls_lock;
  lock(&calls_lock);
  sbi(IPI, 0, 0, ALL, 0);
  unlock(&calls_lock);
}

static size now(void) {
  size it;
  __asm__ volatile("rdtime %0" : "=r"(it));
  return it;
}

void set_timer(size nanoseconds) {
  sbi(TIME, 0, now() + nanoseconds / 100, 0, 0); /* it counts in 100 of them */
  __asm__ volatile("csrs sie, %0" : : "r"(TIMER));
}

void listen(void) {
  *plic(4 * LINE) = 1;
  *plic(0x2000 + 0x80 * context()) = 1 << LINE;
  claim()[-1] = 0;
  out(lines[0].at + 1, 1);
  __asm__ volatile("csrs sie, %0" : : "r"(EXTERNAL));
}

/* What start.S calls in each trap, with the registers that it kept. */
_Noreturn void trapped(struct frame *it, size cause, size address) {
  enum { BREAK = 3, NAMES = 16, FROM_HART = 1, FROM_TIMER = 5, FROM_DEVICE = 9 }; /* the last three behind the highest bit */
  static const char *const names[NAMES] = {[2] = "an instruction that is none", [5] = "an access fault", [7] = "an access fault", [12] = "a page fault",
                                           [13] = "a page fault", [15] = "a page fault"};
  size number = cause << 1 >> 1;
  if (cause == BREAK) {
    it->at += 4;
    work(GAVE_BACK);
  }
  if (cause == number) tell_trap(cause < NAMES && names[cause] ? names[cause] : "an exception", cause, 0, it, address);
  if (number == FROM_HART) __asm__ volatile("csrc sip, %0" : : "r"(SOFTWARE));
  if (number == FROM_DEVICE) *claim() = *claim();
  if (number != FROM_HART) __asm__ volatile("csrc sie, %0" : : "r"((size)1 << number));
  work(number == FROM_TIMER ? TICKED : WOKEN);
}

/* ---- tables */

void set_tables(struct processor *it) {
  __asm__ volatile("csrw stvec, %0" : : "r"(trap));
  __asm__ volatile("csrs sstatus, %0" : : "r"(FLOATS));
  __asm__ volatile("csrw sie, %0" : : "r"(SOFTWARE));
  __asm__ volatile("sfence.vma; csrw satp, %0; sfence.vma" : : "r"((size)8 << 60 | (size)root >> 12) : "memory");
  if (sbi(TIME, 0, -1, 0, 0)) ends("host: there is no timer", NO_PROCESSOR);
}

void forget_pages(void) { __asm__ volatile("sfence.vma" : : : "memory"); }

/* ---- how harts begin, and how the run ends */

void microsecond(void) {
  for (size began = now(); now() - began < 10;);
}

void call_others(void) {
  for (unsigned i = 1; i < processor_count; i++) sbi(HSM, 0, processors[i].number, (long)start, 0);
}

_Noreturn void first_processor(size hart, const byte *tree) {
  lines[0] = lines[1] = lines[2] = line_16550(0x10000000);
  begin_by_tree(hart, tree, 0x30000000, 0x03000000);
}

/* QEMU's test device ends the machine with a status. */
void power_off(int status) {
  enum { FINISHER = 0x100000, FAIL = 0x3333 };
  *(volatile unsigned *)FINISHER = (unsigned)(status & 0xFF) << 16 | FAIL;
}
