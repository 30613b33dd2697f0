/* One segment in kseg0. */
ENTRY(start)
PHDRS { text PT_LOAD; }
SECTIONS {
  . = 0x80010000;
  .text : { *(.text) } :text
  /DISCARD/ : { *(*) }
}
