/*
 * LM3S6965: 256 KB of flash at 0, 64 KB of RAM at 0x20000000, as the logger has.
 * The stack stands first in RAM: below it is no memory, so an overflow faults and writes over nothing.
 */
MEMORY {
  FLASH (rx) : ORIGIN = 0, LENGTH = 256K
  RAM (rw) : ORIGIN = 0x20000000, LENGTH = 64K
}
ENTRY(reset)
SECTIONS {
  .text : { KEEP(*(.vectors)) *(.text*) *(.rodata*) . = ALIGN(8); } > FLASH
  .ARM.exidx : { *(.ARM.exidx*) } > FLASH
  .stack (NOLOAD) : { __stack_low = .; . += DEFINED(STACK) ? STACK : 4K; . = ALIGN(8); __stack_top = .; } > RAM
  .data : { __data = .; *(.data*) . = ALIGN(8); __data_end = .; } > RAM AT > FLASH
  __data_load = LOADADDR(.data);
  .bss (NOLOAD) : { __bss = .; *(.bss*) *(COMMON) . = ALIGN(8); __bss_end = .; } > RAM
  /DISCARD/ : { *(.comment) *(.ARM.attributes) }
}
