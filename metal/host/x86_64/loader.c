/* What the boot loader and the firmware left on a PC: memory, words, the plan, a screen, processors. QEMU and GRUB load by Multiboot 1. */
#include "host.h"

static size acpi; /* where ACPI's first table is, or 0 */
size io_apic;

static unsigned word_at(size at) { return *(const volatile unsigned *)at; }
static byte byte_at(size at) { return *(const volatile byte *)at; }
static size long_at(size at) { return word_at(at) | (size)word_at(at + 4) << 32; }

/* ACPI's first table says in its name what it is, and its bytes have the sum 0. */
static void look_for_acpi(size from, size to) {
  enum { BYTES = 20 };
  for (size at = from; !acpi && at < to; at += 16) {
    byte sum = 0;
    for (int i = 0; i < BYTES; i++) sum += byte_at(at + i);
    if (sum == 0 && begins_with((const char *)at, "RSD PTR ")) acpi = at;
  }
}

/* A piece of the map of memory: its start, its length, what it is. UEFI leaves ACPI's tables in a piece of their own. */
static void has_piece(size at) {
  enum { LENGTH = 8, KIND = 16, IS_MEMORY = 1, IS_OF_ACPI = 3 };
  size start = long_at(at), end = start + long_at(at + LENGTH);
  if (word_at(at + KIND) == IS_MEMORY) has_memory(start, end);
  if (word_at(at + KIND) == IS_OF_ACPI && end >> 32 == 0) look_for_acpi(start, end);
}

/* The first word is the image's name; the first module is standard input. */
static void read_multiboot(const unsigned *left) {
  enum { FLAGS, WORDS = 4, MODULES, MODULES_AT, MAP_BYTES = 11, MAP, SCREEN = 22, PITCH = 24, WIDE, HIGH, BITS_AND_KIND, OF_DOTS = 1 };
  enum { HAS_WORDS = 1 << 2, HAS_MODULES = 1 << 3, HAS_MAP = 1 << 6, HAS_SCREEN = 1 << 12 };
  unsigned has = left[FLAGS];
  for (size one = left[MAP]; has & HAS_MAP && one < left[MAP] + left[MAP_BYTES]; one += word_at(one) + 4) has_piece(one + 4);
  if (has & HAS_WORDS) has_words((const char *)(size)left[WORDS]);
  if (has & HAS_MODULES && left[MODULES] > 0) input = (struct region){word_at(left[MODULES_AT]), word_at(left[MODULES_AT] + 4)};
  if (has & HAS_SCREEN && (left[BITS_AND_KIND] >> 8 & 0xFF) == OF_DOTS) has_screen(left + SCREEN);
}

/* ---- the processors that there are, by ACPI's table */

/* ACPI's table of processors, or 0. A BIOS leaves ACPI's first table in the last of the low memory, or in its own. A table above 4 GiB has no page. */
static size processors_table(void) {
  enum { VERSION = 15, ROOT32 = 16, ROOT64 = 24, BYTES = 4, HEADER = 36 };
  look_for_acpi(0x80000, 0xA0000);
  look_for_acpi(0xE0000, 0x100000);
  if (!acpi) return 0;
  int is_wide = byte_at(acpi + VERSION) >= 2 && long_at(acpi + ROOT64);
  size root = is_wide ? long_at(acpi + ROOT64) : word_at(acpi + ROOT32);
  for (unsigned i = HEADER; root >> 32 == 0 && i < word_at(root + BYTES); i += is_wide ? 8 : 4) {
    size table = is_wide ? long_at(root + i) : word_at(root + i);
    if (table >> 32 == 0 && begins_with((const char *)table, "APIC")) return table;
  }
  return 0;
}

/* Counts the processors that the table names as there, the one that runs first. Where there is no table there is one. */
static void count_processors(void) {
  enum { BYTES = 4, ENTRIES = 44, IS_PROCESSOR = 0, IS_IO_APIC = 1, IS_WIDE_PROCESSOR = 9, IS_THERE = 1 };
  size table = processors_table();
  for (size at = table + ENTRIES; table && at < table + word_at(table + BYTES) && byte_at(at + 1) > 0; at += byte_at(at + 1)) {
    if (byte_at(at) == IS_PROCESSOR && byte_at(at + 4) & IS_THERE) has_processor(byte_at(at + 3));
    if (byte_at(at) == IS_WIDE_PROCESSOR && byte_at(at + 8) & IS_THERE) has_processor(word_at(at + 4));
    if (byte_at(at) == IS_IO_APIC && !word_at(at + 8)) io_apic = word_at(at + 4);
  }
}

/* Reads what the loader left, on the first processor. Standard error is the second line, or the first where there is no second. */
_Noreturn void first_processor(unsigned magic, const unsigned *left) {
  enum { MAGIC = 0x2BADB002, LINE1 = 0x3F8, LINE2 = 0x2F8, KEEPS = 7, KEPT = 0x5A };
  out(0x21, 0xFF); /* no interrupt of the old kind */
  out(0xA1, 0xFF);
  lines[0] = lines[1] = lines[2] = line_16550(LINE1);
  out(LINE2 + KEEPS, KEPT); /* a register that only keeps what it is given */
  if (in(LINE2 + KEEPS) == KEPT) lines[2] = line_16550(LINE2);
  has_processor(0);
  set_pages();
  set_tables(processors);
  if (magic == MAGIC) read_multiboot(left);
  clear_screen();
  set_memory(); /* a plan that is too large lies over the tables, too */
  count_processors();
  memcpy((void *)OTHERS_PAGE, others_start, others_end - others_start);
  set_page(OTHERS_PAGE, CODE);
  begin_program();
}
