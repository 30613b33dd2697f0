/* Where the parts of a program lie: vectors, code and data in local memory from 0x80000000 on, the stack
 * below 0x80100000, and VOTED data in global memory from 0x84000000 on.
 */
ENTRY(start)

PHDRS {
  program PT_LOAD;
  voted PT_LOAD;
}

SECTIONS {
  . = 0x80000000;
  .vectors : { KEEP(*(.vectors)) } :program
  . = 0x80000100;
  .text : { *(.text .text.*) } :program
  .rodata : { *(.rodata .rodata.*) } :program
  .data : { *(.data .data.* .sdata .sdata.*) } :program
  .bss : { *(.bss .bss.* .sbss .sbss.* .scommon COMMON) } :program
  .rel.dyn : { *(.rel.dyn) } :program
  ASSERT(SIZEOF(.rel.dyn) == 0, "the program is to be relocated, which nothing here does")
  . = ALIGN(8);
  program_end = .;
  stack_top = 0x80100000;
  ASSERT(program_end <= stack_top - 0x10000, "the program leaves less than 64 KiB for its stack")

  . = 0x84000000;
  .voted : { *(.voted) } :voted
  ASSERT(. <= 0x84100000, "more VOTED data than global memory has")

  /* What GNU tools add and nothing here reads. Two of these would be loaded, over memory that the program
     may want, or be refused by the loader. */
  /DISCARD/ : {
    *(.reginfo .MIPS.abiflags .MIPS.options .pdr .mdebug.abi32 .gnu.attributes)
    *(.comment .note .note.* .eh_frame .eh_frame_hdr .debug_*)
  }
}
