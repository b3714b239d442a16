/* One segment, where the machine wants it. Code, constants and the rest begin on pages of their own. An image has its zeros too. */
ENTRY(start)
PHDRS { all PT_LOAD FLAGS(7); }
SECTIONS {
  . = image_start;
  .boot : { *(.boot) } :all
  .text ALIGN(4096) : { *(.text .text.*) } :all
  text_end = ALIGN(4096);
  .rodata ALIGN(4096) : { *(.rodata .rodata.* .srodata .srodata.* .data.rel.ro .data.rel.ro.* .got .got.*) } :all
  constants_end = ALIGN(4096);
  .data ALIGN(4096) : { *(.data .data.* .sdata .sdata.* .sbss .sbss.* .bss .bss.* COMMON) } :all
  image_end = ALIGN(16);
  image_size = image_end - image_start;
  /DISCARD/ : { *(.comment) *(.eh_frame) *(.note*) *(.riscv.attributes) }
}
