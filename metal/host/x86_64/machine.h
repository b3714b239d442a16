/* A PC. Its serial lines and chips have ports. */

/* What a trap keeps: floats as fxsave lays them down, registers as start.S pushes them, and what the processor pushes. */
struct __attribute__((aligned(16))) frame {
  unsigned floats[128];
  size r15, r14, r13, r12, r11, r10, r9, r8, rbp, rdi, rsi, rdx, rcx, rbx, rax, number, error, at, code, flags, stack, data;
};
enum { MEMORY_START = 1 << 20, OTHERS_PAGE = 0x8000, CODE_AT = 0x08, PUSHED_BY_CALL = 8 };
#define MEMORY_TOP ((size)0xC0000000)
#define FIRST_FRAME .floats = {[0] = 0x37F, [6] = 0x1F80}, .code = CODE_AT, .flags = 0x202 /* floats trap nothing; interrupts are on */

/* The task state segment, of which a stack of traps is used, and the table of segments. */
struct __attribute__((packed)) tables {
  unsigned none;
  size none2[4];
  struct frame *frame_end;
  byte none3[60];
  size gdt[4];
};

/* The low bits of a page entry say that the page is there, may be written, and is a large one; the highest says not to run it. */
enum { ENTRY_SHIFT = 0, TABLE = 3, LARGE = 0x80 };
#define NOT_RUN ((size)1 << 63)
static const size page_bits[] = {[CODE] = 1, [CONSTANT] = 1 | NOT_RUN, [DATA] = 3 | NOT_RUN, [DEVICE] = 3 | NOT_RUN};
#define FIRST_PAGES 0x83, 0x200083, 0x400083, 0x600083 /* until C sets pages: 8 MiB, where the image is */

static inline void out(size port, byte value) { __asm__ volatile("outb %0, %1" : : "a"(value), "Nd"((unsigned short)port)); }
static inline byte in(size port) {
  byte value;
  __asm__ volatile("inb %1, %0" : "=a"(value) : "Nd"((unsigned short)port));
  return value;
}
static inline struct processor *me(void) { return *(struct processor *__seg_gs *)8; }
static inline void interrupts_off(void) { __asm__ volatile("cli" : : : "memory"); }
static inline void interrupts_on(void) { __asm__ volatile("sti" : : : "memory"); }
static inline void idle(void) { __asm__ volatile("hlt" : : : "memory"); }
static inline void pause(void) { __asm__ volatile("pause" : : : "memory"); }
static inline void leave(void) { __asm__ volatile("int $34" : : : "memory"); } /* a trap, by which a thread gives its processor back */

/* loader.c and screen.c */
extern size io_apic; /* where the chip is that brings interrupts of devices, or 0 */
extern byte others_start[], others_end[]; /* what other processors begin with, at OTHERS_PAGE */
void clear_screen(void), has_screen(const unsigned *it);
