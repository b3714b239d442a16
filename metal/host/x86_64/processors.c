/* A PC's processors: the tables of each, traps, timers, and how the others begin. */
#include "host.h"

enum { GS_BASE = 0xC0000101, APIC_BASE = 0x1B, X2APIC = 0x800 }; /* model registers */
enum { TICK = 32, WAKE, LEAVE, SPURIOUS = 47, TRAPS };           /* numbers of traps; those beneath are exceptions */
extern byte traps[];
struct processor *next_up = processors + 1; /* start.S gives it to the next that begins, whichever that is */
static int has_x2apic;

static size model_register(unsigned number) {
  unsigned low, high;
  __asm__ volatile("rdmsr" : "=a"(low), "=d"(high) : "c"(number));
  return (size)high << 32 | low;
}
static void set_model_register(unsigned number, size value) {
  __asm__ volatile("wrmsr" : : "c"(number), "a"((unsigned)value), "d"((unsigned)(value >> 32)) : "memory");
}

static void cpuid(unsigned leaf, unsigned it[4]) {
  __asm__ volatile("cpuid" : "=a"(it[0]), "=b"(it[1]), "=c"(it[2]), "=d"(it[3]) : "a"(leaf), "c"(0));
}

/* What the processor has, as glibc tells it: the four registers of a leaf, and the same as far as it is in use. Of other leaves, which the program does
   not ask for, nothing. */
const void *__x86_get_cpuid_feature_leaf(unsigned leaf) {
  static unsigned told[3][8];
  static const unsigned leaves[3] = {1, 0, 0x80000001};
  unsigned place = leaf < 3 ? leaf : 1, *it = told[place];
  if (leaves[place]) cpuid(leaves[place], it);
  memcpy(it + 4, it, 4 * sizeof *it);
  return it;
}

/* ---- interrupts: registers of a processor's own chip, in memory or in x2APIC mode among the model's */

enum { NAME = 0x20, PRIORITY = 0x80, END = 0xB0, CONTROL = 0xF0, COMMAND = 0x300, TO = 0x310, TIMER = 0x320, COUNT = 0x380, DIVIDE = 0x3E0 };
enum { TO_ALL_OTHERS = 3 << 18, IS_BEING_SENT = 1 << 12, INIT = 0x4500, BEGIN = 0x4600 };

static volatile unsigned *apic_register(unsigned place) { return (volatile unsigned *)((model_register(APIC_BASE) & 0xFFFFFF000) + place); }

static void set_apic(unsigned place, size value) {
  if (has_x2apic) return set_model_register(X2APIC + place / 16, value);
  *apic_register(place) = value;
}

/* Sends a command; what was written before is seen by whom it goes to. */
static void send(unsigned apic, unsigned command) {
  __asm__ volatile("mfence; lfence" : : : "memory");
  if (!has_x2apic) set_apic(TO, apic << 24);
  set_apic(COMMAND, has_x2apic ? (size)apic << 32 | command : command);
  while (!has_x2apic && *apic_register(COMMAND) & IS_BEING_SENT) pause();
}

/* Ends the halt of each other processor, or its next one if it is in none. */
void end_halts(void) { send(0, TO_ALL_OTHERS | WAKE); }

/* A tick after this time, at whatever rate the timer goes: in QEMU a count of it is a nanosecond. */
void set_timer(size nanoseconds) { set_apic(COUNT, nanoseconds); }

/* From now on interrupts of the keyboard and of the first serial line, the first and the fourth of the ISA bus, end a halt of the first processor. */
void listen(void) {
  enum { REDIRECTION = 0x10, WINDOW = 4, KEYBOARD = 1, LINE = 4 };
  volatile unsigned *chip = (volatile unsigned *)io_apic;
  for (unsigned device = KEYBOARD; io_apic && device <= LINE; device += LINE - KEYBOARD) {
    chip[0] = REDIRECTION + 2 * device + 1;
    chip[WINDOW] = processors[0].number << 24;
    chip[0] = REDIRECTION + 2 * device;
    chip[WINDOW] = WAKE;
  }
  out(lines[0].at + 1, 1); /* one, where the line has a byte */
}

/* What start.S calls in each trap, with the registers that it kept. Without its bit the instruction syscall is none, and so a trap; this stands for it. */
_Noreturn void trapped(struct frame *it) {
  enum { NO_INSTRUCTION = 6, SYSCALL = 0x050F };
  static const char *const names[TICK] = {"a division by 0", [NO_INSTRUCTION] = "an instruction that is none", [8] = "a fault in a fault",
                                          [13] = "a general protection fault", [14] = "a page fault"};
  if (it->number == NO_INSTRUCTION && *(const unsigned short *)it->at == SYSCALL) {
    it->rax = call_system(it->rax, (unsigned *)it->rdi, it->rsi, it->rdx);
    it->at += 2;
    work(TICKED);
  }
  if (it->number < TICK) {
    size address;
    __asm__ volatile("movq %%cr2, %0" : "=r"(address));
    tell_trap(names[it->number] ? names[it->number] : "an exception", it->number, it->error, it, address);
  }
  if (it->number < LEAVE) set_apic(END, 0);
  work(it->number == LEAVE ? GAVE_BACK : it->number == TICK ? TICKED : WOKEN);
}

/* ---- tables */

/* Loads what a processor needs to know itself and to take traps. Each trap begins behind the record that keeps registers. */
void set_tables(struct processor *it) {
  enum { STUB = 16, TASK_AT = 0x10, GATE = 0x8E, TASK = 0x89, HAS_APIC = 1 << 9, IS_X2APIC = 1 << 10, IS_ON = 1 << 8, UNDIVIDED = 0xB };
  static size gates[TRAPS][2];
  unsigned has[4];
  for (size i = 0, to = (size)traps; i < TRAPS; i++, to += STUB) /* beneath 4 GiB */
    gates[i][0] = (to & 0xFFFF) | CODE_AT << 16 | (size)1 << 32 | (size)GATE << 40 | to >> 16 << 48;
  struct tables *own = &it->tables;
  size task = (size)own;
  own->gdt[CODE_AT / 8] = 0x00AF9B000000FFFF;
  own->gdt[TASK_AT / 8] = (sizeof *own - sizeof own->gdt - 1) | (task & 0xFFFFFF) << 16 | (size)TASK << 40 | task >> 24 << 56;
  struct __attribute__((packed)) { unsigned short last; const void *at; } gdt = {sizeof own->gdt - 1, own->gdt}, idt = {sizeof gates - 1, gates};
  __asm__ volatile("lgdt %0; lidt %1; ltr %w2" : : "m"(gdt), "m"(idt), "r"(TASK_AT) : "memory");
  set_model_register(GS_BASE, (size)it);
  cpuid(1, has);
  if (!(has[3] & HAS_APIC)) ends("host: there is no timer", NO_PROCESSOR);
  if (it == processors) has_x2apic = !!(model_register(APIC_BASE) & IS_X2APIC); /* as the firmware left it; then the others do the same */
  if (has_x2apic) set_model_register(APIC_BASE, model_register(APIC_BASE) | IS_X2APIC);
  if (it == processors) it->number = has_x2apic ? model_register(X2APIC + NAME / 16) : *apic_register(NAME) >> 24;
  set_apic(PRIORITY, 0);
  set_apic(CONTROL, IS_ON | SPURIOUS);
  set_apic(DIVIDE, UNDIVIDED);
  set_apic(TIMER, TICK);
  if (it == processors) send(0, TO_ALL_OTHERS | INIT); /* they wait for their begin */
}

void forget_pages(void) { __asm__ volatile("movq %%cr3, %%rax; movq %%rax, %%cr3" : : : "rax", "memory"); }

/* ---- how the others begin, and how the run ends */

void microsecond(void) { in(0x80); } /* about one on a PC, and less in QEMU */

/* One that is not yet ready to begin does not hear it, and one that has begun does not either. */
void call_others(void) {
  for (unsigned i = 1; i < processor_count; i++) send(processors[i].number, BEGIN | OTHERS_PAGE / PAGE);
}

/* QEMU's isa-debug-exit at port 0xF4 makes 2 * status + 3 of what it is given, since 1 is QEMU's own. */
void power_off(int status) {
  enum { MOST_STATUS = 126, DEBUG_EXIT = 0xF4 };
  out(DEBUG_EXIT, (status < MOST_STATUS ? status : MOST_STATUS) + 1);
}
