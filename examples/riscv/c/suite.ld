/* The memories of link.ld, for suite.s: data, a heap of HEAP bytes, and the stack at the end of the data memory. */
ENTRY(_start)
MEMORY {
  im (rx) : ORIGIN = 0x00100000, LENGTH = 256K
  dm (rw) : ORIGIN = 0x00200000, LENGTH = 256K
}
SECTIONS {
  .text : { KEEP(*(.text.start)) *(.text .text.*) } > im
  .data : {
    _data = .;
    *(.results)
    *(.rodata .rodata.* .srodata .srodata.*)
    . = ALIGN(4);
    __init_array_start = .;
    KEEP(*(SORT(.init_array.*))) KEEP(*(.init_array))
    __init_array_end = .;
    *(.data .data.* .sdata .sdata.*)
    . = ALIGN(16);
  } > dm
  .tdata : { _tls = .; *(.tdata .tdata.*) } > dm
  .tbss : { *(.tbss .tbss.*) } > dm
  .bss (NOLOAD) : {
    . += SIZEOF(.tbss);
    . = ALIGN(16);
    *(.bss .bss.* .sbss .sbss.* COMMON)
    . = ALIGN(16);
    __heap_start = .;
    . += HEAP;
    __heap_end = .;
    . += ORIGIN(dm) + LENGTH(dm) - ABSOLUTE(.);
    _top = .;
  } > dm
  /DISCARD/ : { *(.comment) *(.riscv.attributes) *(.note*) *(.eh_frame*) *(.fini_array*) }
}
