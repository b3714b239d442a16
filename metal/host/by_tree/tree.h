/* What machines share that a device tree describes. All their devices are in memory. */
struct tables { struct frame *frame_end; };
enum { PUSHED_BY_CALL = 0 };
#define MEMORY_TOP ((size)1 << 32)
#define FIRST_PAGES 0

static inline struct processor *me(void) { return __builtin_thread_pointer(); }

static inline void out(size at, byte value) { *(volatile byte *)at = value; }
static inline byte in(size at) { return *(volatile byte *)at; }

/* tree.c: the first page table; and how the first processor begins, by its number, the tree, and where the bus of devices has its
   configuration and its ports. */
extern size root[512];
_Noreturn void begin_by_tree(unsigned number, const byte *tree, size configuration, size ports);
