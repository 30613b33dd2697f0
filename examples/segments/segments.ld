/* Code in local memory, and data with zeros behind it in another segment of kseg0. */
ENTRY(start)
PHDRS { code PT_LOAD; data PT_LOAD; }
SECTIONS {
  . = 0x80010000;
  .text : { *(.text) } :code
  . = 0x80020000;
  .data : { *(.data) } :data
  .bss : { *(.bss) *(COMMON) } :data
  /DISCARD/ : { *(*) }
}
