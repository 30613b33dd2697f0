/* Code in local memory, and text in global memory. */
ENTRY(start)
PHDRS { code PT_LOAD; data PT_LOAD; }
SECTIONS {
  . = 0x80010000;
  .text : { *(.text) } :code
  . = 0x84000000;
  .data : { *(.data) } :data
  /DISCARD/ : { *(*) }
}
