/* The memories of a TI LM3S6965: put those of your device here. */
MEMORY
{
    flash (rx) : ORIGIN = 0x00000000, LENGTH = 256K
    ram (rwx) : ORIGIN = 0x20000000, LENGTH = 64K
}

ENTRY(vectors)
stack_end = ORIGIN(ram) + LENGTH(ram);

SECTIONS
{
    .text : { KEEP(*(.vectors)) *(.text .text.*) *(.rodata .rodata.*) } > flash
    .data : { . = ALIGN(4); data_start = .; *(.data .data.*) . = ALIGN(4); data_end = .; } > ram AT > flash
    data_from = LOADADDR(.data);
    .bss (NOLOAD) : { . = ALIGN(4); bss_start = .; *(.bss .bss.* COMMON) . = ALIGN(4); bss_end = .; } > ram

    INCLUDE defmtl.ld
}
