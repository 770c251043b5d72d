/* A program that takes more stack than it was built with: the board has to trap, to report it and to stop. */
#include "port.h"

int main(void);
uint32_t deeper(uint32_t depth);

__attribute__((noinline)) uint32_t deeper(uint32_t depth) {
    volatile uint8_t bytes[256];
    for (uint32_t i = 0; i < sizeof bytes; i++) bytes[i] = (uint8_t)depth;
    return depth == 0 ? bytes[0] : deeper(depth - 1) + bytes[depth % sizeof bytes];
}

int main(void) { return (int)deeper(1000000); }
