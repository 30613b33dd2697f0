/* One segment in kseg0: the instructions, and nothing else. */
ENTRY(start)
PHDRS { text PT_LOAD; }
SECTIONS {
  . = 0x80010000;
  .text : { *(.text) } :text
  /DISCARD/ : { *(*) }
}
