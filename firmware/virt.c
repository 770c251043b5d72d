/* The RISC-V board: qemu's virt with a 32-bit processor. Its UART is keypad and display. */
#include "port.h"

typedef struct {
    volatile uint8_t data, interrupts, fifo, line, modem, state;
} uart;
enum { RECEIVED = 1, MAY_SEND = 32 }; /* state */
#define UART ((uart *)UINT32_C(0x10000000))
#define POWER ((volatile uint32_t *)UINT32_C(0x100000))

uint8_t board_key(void) {
    while (!(UART->state & RECEIVED)) {}
    return UART->data;
}

void board_show(uint8_t byte) {
    while (!(UART->state & MAY_SEND)) {}
    UART->data = byte;
}

/* Tells the emulator's switch to end. A board in its case would sleep here. */
void board_stop(int failed) {
    enum { PASSED = 0x5555, FAILED = 0x13333 };
    *POWER = failed ? FAILED : PASSED;
    for (;;) {}
}

/* Makes the ROM what it is on a chip: the processor's memory protection lets nothing write to it. So a stack that grows below its
 * bottom, which stands above the ROM, traps. */
__attribute__((used)) static _Noreturn void start(void) {
    extern uint8_t rom_start[], rom_bytes[];
    enum { READ = 1, RUN = 4, POWER_OF_TWO = 3 << 3, LOCKED = 1 << 7 };
    uint32_t region = (uint32_t)rom_start >> 2 | ((uint32_t)rom_bytes / 8 - 1);
    __asm__ volatile("csrw pmpaddr0, %0" : : "r"(region));
    __asm__ volatile("csrw pmpcfg0, %0" : : "r"(READ | RUN | POWER_OF_TWO | LOCKED));
    port_run();
}

/* Every exception is a fault: no interrupt is switched on. The report begins at the stack's top again. */
__attribute__((naked, used, aligned(4))) static void fault(void) { __asm__("csrr a0, mepc\n la sp, stack_top\n j port_fault"); }

/* Where the processor begins. */
void reset(void);
__attribute__((naked, section(".vectors"))) void reset(void) {
    __asm__("la sp, stack_top\n la t0, fault\n csrw mtvec, t0\n j start");
}
