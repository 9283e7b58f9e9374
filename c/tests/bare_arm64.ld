/* The memory of qemu's board `virt`. */
ENTRY(_start)
MEMORY { ram : ORIGIN = 0x40000000, LENGTH = 8M }
PHDRS
{
    code PT_LOAD FLAGS(5);
    data PT_LOAD FLAGS(6);
}
SECTIONS
{
    .text : { KEEP(*(.text.start)) *(.text .text.*) *(.rodata .rodata.*) } > ram :code
    .data : { *(.data .data.* .tables) } > ram :data
    .bss : { *(.bss .bss.* COMMON) . = ALIGN(16); . += 64K; stack_top = .; } > ram :data
    /DISCARD/ : { *(.comment) *(.eh_frame*) *(.note*) }
}
