/* What the firmware left on a machine that a device tree describes, QEMU's `virt`: memory, words, the plan and processors; and the first page table. */
#include "host.h"

size root[512] __attribute__((aligned(PAGE)));

/* Numbers of the tree have their high byte first, and one cell of four bytes or two. */
static unsigned number(const byte *at) { return (unsigned)at[0] << 24 | at[1] << 16 | at[2] << 8 | at[3]; }
static size cells(const byte *at, unsigned bytes) { return bytes == 8 ? (size)number(at) << 32 | number(at + 4) : number(at); }

/* A property of a node. Addresses and lengths of memory have two cells, as on QEMU's machine. */
static void has_property(const char *node, const char *name, const byte *value, unsigned bytes) {
  if (begins_with(node, "memory@") && is_same(name, "reg"))
    for (unsigned i = 0; i + 16 <= bytes; i += 16) has_memory(cells(value + i, 8), cells(value + i, 8) + cells(value + i + 8, 8));
  if (begins_with(node, "cpu@") && is_same(name, "reg")) has_processor(cells(value, bytes));
  if (!is_same(node, "chosen")) return;
  if (is_same(name, "bootargs")) has_words((const char *)value);
  if (is_same(name, "linux,initrd-start")) input.start = cells(value, bytes);
  if (is_same(name, "linux,initrd-end")) input.end = cells(value, bytes);
}

/* The properties of a node stand behind its name, before any node in it. Nobody reads the tree again, so its memory is free. */
static void read_tree(const byte *tree) {
  enum { BEGIN = 1, END, PROPERTY, NOTHING, STRUCTURE = 8, NAMES = 12 };
  const char *node = "", *names = (const char *)tree + number(tree + NAMES);
  unsigned token = NOTHING;
  for (const byte *at = tree + number(tree + STRUCTURE); token <= NOTHING; at = (const byte *)(((size)at + 3) & ~(size)3)) {
    token = number(at);
    at += 4;
    if (token == BEGIN)
      for (node = (const char *)at; *at++;);
    if (token != PROPERTY) continue;
    has_property(node, names + number(at + 4), at + 8, number(at));
    at += 8 + number(at);
  }
}

/* Standard error goes to QEMU's pci-serial where that is device 1 of the bus, or else to the first line. */
static void set_second_line(size configuration, size ports) {
  enum { DEVICE = 1 << 15, AT = 0x1000, PCI_SERIAL = 0x00021B36, USES_PORTS = 1 };
  volatile unsigned *device = (volatile unsigned *)(configuration + DEVICE);
  if (device[0] != PCI_SERIAL) return;
  device[4] = AT;
  device[1] = USES_PORTS;
  lines[2] = line_16550(ports + AT);
}

_Noreturn void begin_by_tree(unsigned number, const byte *tree, size configuration, size ports) {
  has_processor(number);
  for (size i = 0; i < 4; i++) root[i] = (size)&directories[i * 512] >> ENTRY_SHIFT | TABLE;
  set_pages();
  set_tables(processors);
  set_second_line(configuration, ports);
  has_words("tower ");
  read_tree(tree);
  set_memory();
  begin_program();
}

/* There is no screen and no keyboard. */
void show(long fd, byte one) {}
int key(void) { return -1; }

/* The program asks whether the processor has what x86-64-v2 has; here the compiler knew the processor. */
static const unsigned features[8] = {-1u, -1u, -1u, -1u, -1u, -1u, -1u, -1u};
const void *__x86_get_cpuid_feature_leaf(unsigned leaf) { return features; }
