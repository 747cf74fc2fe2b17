/* QEMU's mps2-an500: a Cortex-M7 with 4 MB for code and 16 MB of memory. */
MEMORY { code (rx) : ORIGIN = 0, LENGTH = 4M  data (rwx) : ORIGIN = 0x60000000, LENGTH = 16M }
ENTRY(bare_start)
stack_top = ORIGIN(data) + LENGTH(data);
SECTIONS {
  .text : { KEEP(*(.start)) *(.text*) *(.rodata*) } > code
  .ARM.exidx : { *(.ARM.exidx*) } > code
  .data : { *(.data*) } > data
  .bss : { *(.bss*) *(COMMON) } > data
}
