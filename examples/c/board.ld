/* The board's two memories. ROM begins with a jump; the dispatcher's slot, 0x40 to 0xBF, is left free; the table of
   handlers begins at a multiple of 64, as mtvt wants it. */
ENTRY(reset)

MEMORY {
    ROM (rx) : ORIGIN = 0x00000000, LENGTH = 64K
    RAM (rw) : ORIGIN = 0x20000000, LENGTH = 64K
}

/* The two stacks end where RAM does: first the handlers', below it the foreground's. Neither has a byte of the other. */
interrupt_stack_end = ORIGIN(RAM) + LENGTH(RAM);
interrupt_stack_size = 8K;
stack_end = interrupt_stack_end - interrupt_stack_size;
stack_size = 8K;

SECTIONS {
    .reset ORIGIN(ROM) : { KEEP(*(.reset)) } >ROM
    ASSERT(SIZEOF(.reset) <= 0x40, "the first code reaches into the dispatcher's slot")

    .vectors 0xC0 : { vectors = .; KEEP(*(.vectors)) } >ROM
    ASSERT(vectors % 64 == 0, "the table isn't where mtvt can say")

    .text : { *(.text .text.*) } >ROM
    .rodata : { *(.rodata .rodata.* .srodata .srodata.*) } >ROM

    .data : ALIGN(4) {
        data_start = .;
        *(.data .data.* .sdata .sdata.*)
        . = ALIGN(4);
        data_end = .;
    } >RAM AT>ROM
    data_in_rom = LOADADDR(.data);

    .bss (NOLOAD) : ALIGN(4) {
        bss_start = .;
        *(.bss .bss.* .sbss .sbss.* COMMON)
        . = ALIGN(4);
        bss_end = .;
    } >RAM
    ASSERT(bss_end <= stack_end - stack_size, "no room is left for the stacks")

    /DISCARD/ : { *(.comment) *(.riscv.attributes) *(.note*) *(.eh_frame*) }
}
