/* One segment in kseg0, from the vectors on. */
ENTRY(start)
PHDRS { text PT_LOAD; }
SECTIONS {
  . = 0x80000000;
  .text : { *(.text) } :text
  /DISCARD/ : { *(*) }
}
