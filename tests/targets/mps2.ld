/* qemu's board mps2-an385: a Cortex-M3 with 4 MB of memory at 0 and as much at 0x20000000. qemu loads a program with its data. */
MEMORY {
    CODE (rx) : ORIGIN = 0, LENGTH = 4M
    DATA (rw) : ORIGIN = 0x20000000, LENGTH = 4M
}
SECTIONS {
    .text : { KEEP(*(.vectors)) *(.text .text.*) *(.rodata .rodata.*) *(.data.rel.ro .data.rel.ro.*) } > CODE
    .ARM.exidx : { *(.ARM.exidx .ARM.exidx.*) } > CODE
    .data : { *(.data .data.*) *(.bss .bss.*) *(COMMON) } > DATA
    stack_top = ORIGIN(DATA) + LENGTH(DATA);
}
