/* All in one memory, which begins at BASE and is given as 64 MB. */
ENTRY(start)
stack_top = BASE + 0x4000000 - 256;
SECTIONS {
  . = BASE;
  .text : { KEEP(*(.start)) *(.text*) *(.rodata*) *(.srodata*) }
  .data : ALIGN(16) { *(.data*) *(.sdata*) }
  .bss : ALIGN(16) { *(.sbss*) *(.bss*) *(COMMON) }
}
