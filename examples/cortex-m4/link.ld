/* Where the image lies: a flash at 0 and a RAM of 16 KB, or of as many bytes as the linker is told: --defsym=ram_bytes=0x10000 */
MEMORY
{
    FLASH (rx) : ORIGIN = 0x00000000, LENGTH = 256K
    RAM (rw)   : ORIGIN = 0x20000000, LENGTH = DEFINED(ram_bytes) ? ram_bytes : 16K
}

ENTRY(reset)

SECTIONS
{
    .text : { KEEP(*(.vectors)) *(.text .text.*) *(.rodata .rodata.*) } > FLASH
    .data : ALIGN(4) { data_start = .; *(.data .data.*) . = ALIGN(4); data_end = .; } > RAM AT > FLASH
    data_stored = LOADADDR(.data);
    .bss (NOLOAD) : ALIGN(4) { bss_start = .; *(.bss .bss.* COMMON) . = ALIGN(4); bss_end = .; } > RAM
    stack_top = ORIGIN(RAM) + LENGTH(RAM);
    /DISCARD/ : { *(.ARM.exidx*) *(.ARM.extab*) *(.comment) *(.note*) }
}
