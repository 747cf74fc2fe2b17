/* QEMU's virt: one memory from 80000000 on, 1 MB of it for code and 3 MB for data. For another board these are other numbers. */
MEMORY { code (rx) : ORIGIN = 0x80000000, LENGTH = 1M  data (rw) : ORIGIN = 0x80100000, LENGTH = 3M }
ENTRY(board_start)
SECTIONS {
  .text : { KEEP(*(.start)) *(.text*) *(.rodata*) *(.srodata*) } > code
  .data : ALIGN(16) { *(.data*) *(.sdata*) } > data
  .bss (NOLOAD) : ALIGN(16) { bss_from = .; *(.sbss*) *(.bss*) *(COMMON) . = ALIGN(16); bss_to = .; } > data
  .stack (NOLOAD) : { stack_from = .; . += DEFINED(STACK) ? STACK : 4K; stack_to = .; } > data
}
