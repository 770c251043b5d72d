/* The two sides of a port: what a board gives, some 60 lines of C (mps2.c, virt.c), and what all boards share (port.c). */
#ifndef PORT_H
#define PORT_H

#include <stdint.h>

/* The board's side. */
uint8_t board_key(void);               /* the next byte from the keypad, which it waits for */
void board_show(uint8_t byte);         /* shows a byte on the display */
_Noreturn void board_stop(int failed); /* ends the run */

/* The shared side. A board's reset calls the first once it has a stack, its fault handler the second. */
_Noreturn void port_run(void);
_Noreturn void port_fault(uint32_t address); /* of the instruction that trapped; 0 if that is not known */

/* From the linker script: where what is written stands, to be cleared; the slot; the stack, which grows down to its bottom. */
extern uint8_t data_start[], data_end[];
extern const volatile uint8_t slot_start[], slot_end[];
extern uint32_t stack_bottom[], stack_top[];

/* The byte that the keypad sends for its key 'end': the input is over. */
enum { END_KEY = 4 };

#endif
