/* QEMU's mps2-an386: 4 MB for code at 0, and 4 MB of memory. For another board these two are other numbers. */
MEMORY { code (rx) : ORIGIN = 0, LENGTH = 4M  data (rw) : ORIGIN = 0x20000000, LENGTH = 4M }
ENTRY(board_start)
SECTIONS {
  .text : { KEEP(*(.start)) *(.text*) *(.rodata*) } > code
  .ARM.exidx : { *(.ARM.exidx*) } > code
  .data : ALIGN(16) { data_from = .; *(.data*) . = ALIGN(4); data_to = .; } > data AT > code
  data_load = LOADADDR(.data);
  .bss (NOLOAD) : ALIGN(16) { bss_from = .; *(.bss*) *(COMMON) . = ALIGN(16); bss_to = .; } > data
  .stack (NOLOAD) : { stack_from = .; . += DEFINED(STACK) ? STACK : 4K; stack_to = .; } > data
}
