/* Code at the start of memory, what it writes behind it. */
SECTIONS
{
  . = 0;
  .text : { *(.text.start) *(.text*) }
  . = ALIGN(16);
  .bss : { *(.bss*) *(.sbss*) }
  /DISCARD/ : { *(.comment) *(.riscv.attributes) }
}
