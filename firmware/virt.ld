/* The RISC-V board's memory, laid out as in mps2.ld; all of it is one RAM in qemu, of which virt.c locks the ROM. */
ENTRY(reset)

MEMORY {
    ROM (rx) : ORIGIN = 0x80000000, LENGTH = rom_bytes
    RAM (rw) : ORIGIN = 0x80000000 + rom_bytes, LENGTH = ram_bytes
    SLOT (r) : ORIGIN = 0x81000000, LENGTH = 32K
}

SECTIONS {
    .rom : { KEEP(*(.vectors)) *(.text .text.*) *(.rodata .rodata.* .srodata .srodata.*) } > ROM
    .stack (NOLOAD) : ALIGN(16) { stack_bottom = .; . += stack_bytes; . = ALIGN(16); stack_top = .; } > RAM
    .ram (NOLOAD) : ALIGN(16) { data_start = .; *(.bss .bss.* .sbss .sbss.*) data_end = .; } > RAM
    .data : { *(.data .data.* .sdata .sdata.*) } > ROM
    /DISCARD/ : { *(.stack_sizes) *(.comment) *(.note.*) *(.riscv.attributes) }
    rom_start = ORIGIN(ROM);
    slot_start = ORIGIN(SLOT);
    slot_end = ORIGIN(SLOT) + LENGTH(SLOT);
}

ASSERT(SIZEOF(.data) == 0, "there is data with values, which nothing copies from ROM")
ASSERT(data_end <= ORIGIN(RAM) + LENGTH(RAM), "the stack's bound and the data do not fit into the RAM")
ASSERT(SIZEOF(.rom) <= LENGTH(ROM), "code and constants do not fit into the ROM")
