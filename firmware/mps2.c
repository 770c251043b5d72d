/* The ARM board: qemu's mps2-an385, a Cortex-M3. Its first UART is keypad and display. */
#include "port.h"

typedef struct {
    volatile uint32_t data, state, control, interrupts, divider;
} uart;
enum { TO_SEND = 1, RECEIVED = 2 };      /* state: a byte waits in the buffer */
enum { SEND_AND_RECEIVE = 3 };           /* control */
enum { LEAST_DIVIDER = 16 };             /* the fastest rate */
#define UART ((uart *)UINT32_C(0x40004000))

uint8_t board_key(void) {
    while (!(UART->state & RECEIVED)) {}
    return (uint8_t)UART->data;
}

void board_show(uint8_t byte) {
    while (UART->state & TO_SEND) {}
    UART->data = byte;
}

/* Asks the emulator to end, by semihosting. A board in its case would sleep here. */
void board_stop(int failed) {
    enum { SYS_EXIT = 0x18, APPLICATION_EXIT = 0x20026, RUN_TIME_ERROR = 0x20023 };
    register int call __asm__("r0") = SYS_EXIT;
    register int reason __asm__("r1") = failed ? RUN_TIME_ERROR : APPLICATION_EXIT;
    __asm__ volatile("bkpt 0xab" : : "r"(call), "r"(reason) : "memory");
    for (;;) {}
}

_Noreturn void reset(void);
_Noreturn void reset(void) {
    UART->divider = LEAST_DIVIDER;
    UART->control = SEND_AND_RECEIVE;
    port_run();
}

/* The processor has stored the address of the instruction sixth of eight words, unless there was no stack left to store it on. */
__attribute__((used)) static _Noreturn void report(const uint32_t *stored) {
    port_fault(stored >= stack_bottom && stored < stack_top ? stored[6] : 0);
}

/* Every exception is a fault: no interrupt is switched on. The report begins on a stack of its own, which is the whole stack again. */
__attribute__((naked)) static void fault(void) {
    __asm__("mrs r0, msp\n ldr r1, =stack_top\n mov sp, r1\n b report");
}

/* What the processor looks up at address 0: its stack, where it begins, and fourteen exceptions. */
typedef union {
    uint32_t *stack;
    void (*handler)(void);
} vector;
__attribute__((used, section(".vectors"))) static const vector vectors[16] = {
    {.stack = stack_top}, {.handler = reset}, {.handler = fault}, {.handler = fault}, {.handler = fault}, {.handler = fault},
    {.handler = fault},   {.handler = fault}, {.handler = fault}, {.handler = fault}, {.handler = fault}, {.handler = fault},
    {.handler = fault},   {.handler = fault}, {.handler = fault}, {.handler = fault},
};
