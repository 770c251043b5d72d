/* The ARM board's memory. `stack_bytes` is the bound by the call graph, `rom_bytes` and `ram_bytes` are the chip's: boards.py gives them.
 * The stack stands below what is written, at the bottom of the RAM: one that grew further would trap, and write over nothing. */
ENTRY(reset)

MEMORY {
    ROM (rx) : ORIGIN = 0x00000000, LENGTH = rom_bytes
    RAM (rw) : ORIGIN = 0x20000000, LENGTH = ram_bytes
    SLOT (r) : ORIGIN = 0x21000000, LENGTH = 32K
}

SECTIONS {
    .rom : { KEEP(*(.vectors)) *(.text .text.*) *(.rodata .rodata.*) } > ROM
    .stack (NOLOAD) : ALIGN(8) { stack_bottom = .; . += stack_bytes; . = ALIGN(8); stack_top = .; } > RAM
    .ram (NOLOAD) : ALIGN(8) { data_start = .; *(.bss .bss.*) data_end = .; } > RAM
    .data : { *(.data .data.*) } > ROM
    /DISCARD/ : { *(.ARM.exidx .ARM.exidx.*) *(.stack_sizes) *(.comment) *(.note.*) }
    slot_start = ORIGIN(SLOT);
    slot_end = ORIGIN(SLOT) + LENGTH(SLOT);
}

ASSERT(SIZEOF(.data) == 0, "there is data with values, which nothing copies from ROM")
ASSERT(data_end <= ORIGIN(RAM) + LENGTH(RAM), "the stack's bound and the data do not fit into the RAM")
ASSERT(SIZEOF(.rom) <= LENGTH(ROM), "code and constants do not fit into the ROM")
