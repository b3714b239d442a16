/* Arm's processors: their tables, traps, timers, and how the others begin, by the calls of PSCI. */
#include "host.h"

extern byte vectors[], others_start[];

/* ---- interrupts: a GICv3 brings them from another processor, from the timer, and from the first line, a PL011 */

enum { OTHER = 0, TICK = 27, LINE = 33, LINE_MASK = 0x38, LINE_HAS = 0x50 };
static volatile unsigned *at(size place) { return (volatile unsigned *)place; }
static volatile unsigned *gic(size place) { return at(0x08000000 + place); }

/* Ends the halt of each other processor, or its next one if it is in none. */
void end_halts(void) { __asm__ volatile("dsb sy; msr S3_0_C12_C11_5, %0; isb" : : "r"((size)1 << 40) : "memory"); }

static size ticks_of(size nanoseconds) { return __builtin_arm_rsr64("cntfrq_el0") * nanoseconds / 1000000000; }

void set_timer(size nanoseconds) {
  __builtin_arm_wsr64("cntv_tval_el0", ticks_of(nanoseconds));
  __builtin_arm_wsr64("cntv_ctl_el0", 1);
}

/* An interrupt of the first line ends a halt of the first processor. It is on in that halt alone, since it stays until its byte is taken. */
void listen(void) {
  *gic(0x6000 + 8 * LINE) = processors[0].number;
  *gic(0x84) = *gic(0x104) = 1 << LINE % 32;
  *at(lines[0].at + LINE_MASK) = LINE_HAS;
}

/* Says which interrupt it is, and that it is taken. */
static enum reason took_interrupt(void) {
  size number = __builtin_arm_rsr64("S3_0_C12_C12_0");
  __builtin_arm_dsb(15);
  if (number == TICK) __builtin_arm_wsr64("cntv_ctl_el0", 0);
  if (number == LINE) *at(lines[0].at + LINE_MASK) = 0;
  __builtin_arm_isb(15);
  __builtin_arm_wsr64("S3_0_C12_C12_1", number);
  return number == TICK ? TICKED : WOKEN;
}

/* What start.S calls in each trap, with the registers that it kept. An interrupt says nothing in the register of exceptions, which is 0 but for them. */
_Noreturn void trapped(struct frame *it) {
  static const char *names[] = {[0] = "an instruction that is none", [0x3C] = "an instruction that is none", [0x21] = "a page fault", [0x25] = "a page fault"};
  enum { CALL = 0x15, NAMES = sizeof names / sizeof *names };
  size what = __builtin_arm_rsr64("esr_el1"), number = what >> 26 & 63;
  __builtin_arm_wsr64("esr_el1", 0);
  if (!what) work(took_interrupt());
  if (number == CALL) work(GAVE_BACK);
  tell_trap(number < NAMES && names[number] ? names[number] : "an exception", number, what, it, __builtin_arm_rsr64("far_el1"));
}

/* A processor takes interrupts of the first kind: from others, and of its timer. */
static void take_interrupts(void) {
  enum { FRAME = 0x20000, NAME = 0xC, AWAKE = 0x14, KIND = 0x10080, ON = 0x10100, SLEEPS = 4 };
  size own = 0x080A0000;
  while (*at(own + NAME) != own_name()) own += FRAME;
  *gic(0) = 0x12; /* by names of processors; interrupts of the first kind */
  *at(own + AWAKE) = 0;
  while (*at(own + AWAKE) & SLEEPS);
  *at(own + KIND) = ~0u;
  *at(own + ON) = 1 << OTHER | 1 << TICK;
  __asm__ volatile("msr S3_0_C12_C12_5, %0; isb; msr S3_0_C4_C6_0, %1; msr S3_0_C12_C12_7, %0; isb" : : "r"((size)1), "r"((size)0xFF) : "memory");
}

/* ---- tables */

void set_tables(struct processor *it) {
  enum { ON = 1 | 1 << 2 | 1 << 12, FLOATS = 3 << 20 }; /* the table of pages, caches of data and of instructions */
  const size kinds = 0xFF | 0x00 << 8, space = 25 | (size)1 << 8 | (size)1 << 10 | (size)3 << 12 | (size)1 << 23 | (size)1 << 32;
  __asm__ volatile("msr tpidr_el1, %0; msr vbar_el1, %1; msr esr_el1, xzr; msr cpacr_el1, %2" : : "r"(it), "r"(vectors), "r"((size)FLOATS));
  __asm__ volatile("msr mair_el1, %0; msr tcr_el1, %1; msr ttbr0_el1, %2" : : "r"(kinds), "r"(space), "r"(root) : "memory");
  __asm__ volatile("dsb sy; isb; tlbi vmalle1; dsb sy; isb" : : : "memory");
  __builtin_arm_wsr64("sctlr_el1", __builtin_arm_rsr64("sctlr_el1") | ON);
  __builtin_arm_isb(15);
  if (!ticks_of(1000000000)) ends("host: there is no timer", NO_PROCESSOR);
  take_interrupts();
}

void forget_pages(void) { __asm__ volatile("dsb ishst; tlbi vmalle1is; dsb ish; isb" : : : "memory"); }

/* ---- how processors begin, and how the run ends */

#define KEPT_BY_NO_CALL "x4", "x5", "x6", "x7", "x8", "x9", "x10", "x11", "x12", "x13", "x14", "x15", "x16", "x17", "memory"

void microsecond(void) {
  for (size began = __builtin_arm_rsr64("cntvct_el0"); __builtin_arm_rsr64("cntvct_el0") - began < ticks_of(1000););
}

void call_others(void) {
  for (unsigned i = 1; i < processor_count; i++) {
    register size cpu_on __asm__("x0") = 0xC4000003, number __asm__("x1") = processors[i].number;
    register const void *at __asm__("x2") = others_start, *given __asm__("x3") = &processors[i];
    __asm__ volatile("hvc #0" : "+r"(cpu_on), "+r"(number), "+r"(at), "+r"(given) : : KEPT_BY_NO_CALL);
  }
}

_Noreturn void first_processor(const byte *tree) {
  lines[0] = lines[1] = lines[2] = (struct line){0x09000000, 0x18, 0x30, 0x20, 0x10};
  *at(lines[0].at + 0x30) = 0x301; /* it sends and takes */
  begin_by_tree(own_name(), tree, 0x3F000000, 0x3EFF0000);
}

/* QEMU's semihosting ends the machine with a status. */
void power_off(int status) {
  enum { EXIT_EXTENDED = 0x20, APPLICATION_EXIT = 0x20026 };
  const size told[2] = {APPLICATION_EXIT, (size)(status & 0xFF)};
  register size x0 __asm__("x0") = EXIT_EXTENDED;
  register const size *x1 __asm__("x1") = told;
  __asm__ volatile("hlt #0xF000" : : "r"(x0), "r"(x1) : "memory");
}
