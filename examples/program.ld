/* Code, constants and variables each in a segment of its own, at fixed addresses; only the code may be executed. */
OUTPUT_ARCH(riscv)
ENTRY(_start)

PHDRS
{
    code PT_LOAD FLAGS(5);
    constants PT_LOAD FLAGS(4);
    variables PT_LOAD FLAGS(6);
}

SECTIONS
{
    . = 0x00010000;
    .text : { *(.text.start) *(.text .text.*) } :code
    . = 0x00020000;
    .rodata : { *(.rodata .rodata.* .srodata .srodata.*) } :constants
    . = 0x00030000;
    .data : { *(.data .data.* .sdata .sdata.*) } :variables
    .bss : { *(.bss .bss.* .sbss .sbss.* COMMON) } :variables
    stack_top = 0x00031000;
    /DISCARD/ : { *(.comment) *(.note .note.*) *(.eh_frame) *(.riscv.attributes) }
}
