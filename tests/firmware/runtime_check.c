/* Tries the functions of firmware/runtime.c against plain loops: copying, moving and filling at every alignment, and long division. */
#include "port.h"

#include <stddef.h>

int main(void);
void *memcpy(void *to, const void *from, size_t length);
void *memmove(void *to, const void *from, size_t length);
void *memset(void *to, int value, size_t length);

enum { ROOM = 64, LONGEST = 24 };
static uint8_t made[ROOM], right[ROOM], source[ROOM];
static uint64_t state;

static uint64_t chance(void) {
    state = state * UINT64_C(6364136223846793005) + UINT64_C(1442695040888963407);
    return state >> 11;
}

static int same(void) {
    for (int i = 0; i < ROOM; i++) {
        if (made[i] != right[i]) return 0;
    }
    return 1;
}

static void begin(void) {
    for (int i = 0; i < ROOM; i++) made[i] = right[i] = source[i] = (uint8_t)chance();
}

static int memory_is_right(void) {
    for (size_t to = 0; to < 8; to++) {
        for (size_t from = 0; from < 24; from++) {
            for (size_t length = 0; length <= LONGEST; length++) {
                begin();
                for (size_t i = 0; i < length; i++) right[to + i] = source[from + i];
                if (memcpy(made + to, source + from, length) != made + to || !same()) return 0;
                begin();
                for (size_t i = 0; i < length; i++) right[to + i] = source[from + i];
                if (memmove(made + to, made + from, length) != made + to || !same()) return 0;
                begin();
                for (size_t i = 0; i < length; i++) right[from + i] = source[to + i];
                if (memmove(made + from, made + to, length) != made + from || !same()) return 0;
                begin();
                for (size_t i = 0; i < length; i++) right[to + i] = (uint8_t)from;
                if (memset(made + to, (int)(from + 256), length) != made + to || !same()) return 0;
            }
        }
    }
    return 1;
}

static int divides(uint64_t number, uint64_t divisor) {
    uint64_t quotient = number / divisor, rest = number % divisor;
    return rest < divisor && quotient * divisor + rest == number && quotient <= number;
}

static int division_is_right(void) {
    for (int turn = 0; turn < 20000; turn++) {
        uint64_t number = (chance() << 32 ^ chance()) >> chance() % 64, divisor = (chance() << 32 ^ chance()) >> chance() % 64;
        if (divisor != 0 && !divides(number, divisor)) return 0;
    }
    return divides(~UINT64_C(0), 1) && divides(~UINT64_C(0), ~UINT64_C(0)) && divides(0, 3) && divides(~UINT64_C(0), 3) && divides(UINT64_C(1) << 63, UINT64_C(1) << 63);
}

int main(void) {
    state = 1;
    int wrong = !memory_is_right() + 2 * !division_is_right();
    board_show((uint8_t)('0' + wrong));
    board_show('\n');
    return wrong;
}
