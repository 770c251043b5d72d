// Calls pastaspur_optimize on a board, once for each case that stands in the slot, and shows for each the number that it answers, the pairs of
// the best, a sum over the answer, and its instructions. The emulator's clock is one nanosecond an instruction (`-icount shift=0`).
// The slot has the number of cases, and for each the lengths of card, ranking and word, four bytes each, then their bytes, up to a multiple
// of four.

#include "pastaspur.h"
#include "port.h"

static uint16_t work[PASTASPUR_WORK_NUMBERS];
static uint8_t answer[PASTASPUR_ANSWER_BYTES];
static pastaspur_evaluation result;

#ifdef __arm__
// The system timer counts down, 24 bits at 25 MHz: a tick is 40 instructions.
enum { INSTRUCTIONS = 40 };
#define TIMER ((volatile uint32_t *)UINT32_C(0xe000e010))
static const uint32_t all_ticks = 0xffffff;
static void start_ticks(void) {
    TIMER[1] = all_ticks;
    TIMER[2] = 0;
    TIMER[0] = 5; // on, by the processor's clock
}
static uint32_t ticks(void) { return all_ticks - TIMER[2]; }
#else
enum { INSTRUCTIONS = 1 };
static const uint32_t all_ticks = 0xffffffff;
static void start_ticks(void) {}
static uint32_t ticks(void) {
    uint32_t count;
    __asm__ volatile("csrr %0, mcycle" : "=r"(count));
    return count;
}
#endif

static void show(const char *text) {
    for (; *text; text++) board_show((uint8_t)*text);
}

static void show_number(uint32_t number) {
    uint8_t digits[10];
    int count = 0;
    do {
        digits[count++] = (uint8_t)('0' + number % 10);
        number /= 10;
    } while (number);
    while (count) board_show(digits[--count]);
}

static uint32_t number_at(uint32_t at) { return *(const volatile uint32_t *)(slot_start + at); }

static const uint8_t *bytes_at(uint32_t at) { return (const uint8_t *)slot_start + at; }

int main(void);
int main(void) {
    uint32_t at = 4;
    start_ticks();
    for (uint32_t cases = number_at(0); cases > 0; cases--) {
        uint32_t card = number_at(at), ranking = number_at(at + 4), word = number_at(at + 8), sum = 0;
        at += 12;
        uint32_t before = ticks();
        uint32_t refusal = pastaspur_optimize(bytes_at(at), card, bytes_at(at + card), ranking, bytes_at(at + card + ranking), word, work,
                                              PASTASPUR_WORK_NUMBERS, answer, sizeof answer, &result);
        uint32_t spent = (ticks() - before) & all_ticks;
        for (uint32_t i = 0; i < 2 * (uint32_t)result.pairs; i++) sum = sum * 31 + answer[i];
        for (uint32_t i = 0; i < PASTASPUR_MACHINES; i++) sum = sum * 31 + result.counts[i];
        show_number(refusal);
        show(" ");
        show_number(result.pairs);
        show(" ");
        show_number(sum);
        show(" ");
        show_number(spent * INSTRUCTIONS);
        show("\n");
        at += (card + ranking + word + 3) / 4 * 4;
    }
    return 0;
}
