/* The memory of qemu's board `pc`. */
ENTRY(_start)
PHDRS
{
    code PT_LOAD FLAGS(5);
    data PT_LOAD FLAGS(6);
    note PT_NOTE FLAGS(4);
}
SECTIONS
{
    . = 1M;
    .text : { KEEP(*(.text.start)) *(.text .text.*) *(.rodata .rodata.*) } :code
    .note.PVH : { KEEP(*(.note.PVH)) } :code :note
    . = ALIGN(4096);
    .data : { *(.data .data.*) } :data
    .bss : { *(.bss .bss.* COMMON) . = ALIGN(16); . += 64K; stack_top = .; } :data
    /DISCARD/ : { *(.comment) *(.eh_frame*) *(.note.GNU-stack) *(.note.gnu*) }
}
