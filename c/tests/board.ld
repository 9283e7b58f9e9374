/* A board with a memory of its own for code, and RAM of RAM_SIZE bytes, of which STACK_SIZE are the stack.
 * (board.py writes both numbers.) The table of the MMU isn't the library's, and lies elsewhere. */
ENTRY(_start)
MEMORY
{
    rom (rx) : ORIGIN = 0x40000000, LENGTH = 1M
    ram (rw) : ORIGIN = 0x40100000, LENGTH = RAM_SIZE
    tables (rw) : ORIGIN = 0x41000000, LENGTH = 64K
}
PHDRS
{
    code PT_LOAD FLAGS(5);
    data PT_LOAD FLAGS(6);
    table PT_LOAD FLAGS(6);
}
SECTIONS
{
    .text : { KEEP(*(.text.start)) *(.text .text.*) *(.rodata .rodata.*) *(.data.rel.ro .data.rel.ro.*) } > rom :code
    .data : { *(.data .data.*) } > ram :data
    .bss : { *(.bss .bss.* COMMON) . = ALIGN(16); stack_base = .; . += STACK_SIZE; stack_top = .; } > ram :data
    .tables : { *(.tables) } > tables :table
    /DISCARD/ : { *(.comment) *(.eh_frame*) *(.note*) }
}
