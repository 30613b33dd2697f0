/* One segment in kseg0, from the refill vector on. */
ENTRY(start)
PHDRS { text PT_LOAD; }
SECTIONS {
  . = 0x80000000;
  .text : { *(.text) } :text
  /DISCARD/ : { *(*) }
}
