/* The text at the front of RAM, all data after it at the next multiple of 16, as the simulator's assembler puts them.
   ram_base and ram_size are given by --defsym; `from-elf --link` makes these words out of a description. */
ENTRY(_start)
PHDRS
{
    instructions PT_LOAD FLAGS(5);
    variables PT_LOAD FLAGS(6);
}
SECTIONS
{
    . = ram_base;
    .text : { KEEP(*(.text.start)) *(.text .text.*) } :instructions
    .data ALIGN(16) : { *(.rodata .rodata.* .srodata .srodata.*) *(.data .data.* .sdata .sdata.*) } :variables
    .bss ALIGN(16) : { *(.sbss .sbss.* .bss .bss.* COMMON) } :variables
    ram_end = ram_base + ram_size;
    /DISCARD/ : { *(.comment) *(.note.*) *(.eh_frame*) *(.riscv.attributes) }
}
