/* The program is in IM at 0x00100000, the data in DM at 0x00200000. Constants are in DM too, since loads access DM alone. STACK is
   the size of the stack in bytes, a symbol that the linker gets on its command line. */
ENTRY(_start)
MEMORY {
  im (rx) : ORIGIN = 0x00100000, LENGTH = 256K
  dm (rw) : ORIGIN = 0x00200000, LENGTH = 256K
}
SECTIONS {
  .text : { KEEP(*(.text.start)) *(.text .text.*) } > im
  .data : {
    _data = .;
    *(.results)
    *(.rodata .rodata.* .srodata .srodata.*)
    *(.data .data.* .sdata .sdata.*)
    *(.bss .bss.* .sbss .sbss.* COMMON)
    . = ALIGN(16);
    . += STACK;
    _top = .;
  } > dm
  /DISCARD/ : { *(.comment) *(.riscv.attributes) *(.note*) *(.eh_frame*) }
}
