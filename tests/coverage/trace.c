/* trace JUMPS FILE: makes the calls of a file of lines, and says which of them are the first to take a direction of a conditional jump:
 * `LINE ADDRESS taken` or `LINE ADDRESS passed`. JUMPS has the jumps' addresses, in hexadecimal.
 *
 * A breakpoint stands in place of each jump until it has gone both ways; its handler does what the jump does. That is far quicker than
 * callgrind, so that calls can be tried by the hundred thousand. x86-64 Linux alone. */
#define _GNU_SOURCE
#include "calls.h"
#include <signal.h>
#include <stdint.h>
#include <stdio.h>
#include <stdlib.h>
#include <string.h>
#include <sys/mman.h>
#include <ucontext.h>

typedef struct {
    uint8_t *place;
    uint8_t first;   /* its first byte */
    uint8_t seen;    /* 1 passed, 2 taken */
    size_t when[2];  /* the line that passed, took it first */
} Jump;

static Jump *jumps;
static size_t jump_count, line_number;

static int by_place(const void *a, const void *b) {
    uint8_t *const x = ((const Jump *)a)->place, *const y = ((const Jump *)b)->place;
    return x < y ? -1 : x > y;
}

/* Whether the condition of a jump, the low four bits of its code, holds of the flags. */
static int holds(unsigned condition, uint64_t flags) {
    int carry = flags & 1, parity = flags >> 2 & 1, zero = flags >> 6 & 1, sign = flags >> 7 & 1, overflow = flags >> 11 & 1, value;
    switch (condition >> 1) {
    case 0: value = overflow; break;
    case 1: value = carry; break;
    case 2: value = zero; break;
    case 3: value = carry | zero; break;
    case 4: value = sign; break;
    case 5: value = parity; break;
    case 6: value = sign != overflow; break;
    default: value = zero | (sign != overflow);
    }
    return value != (int)(condition & 1);
}

static void at_jump(int signal, siginfo_t *info, void *context) {
    (void)signal;
    (void)info;
    greg_t *registers = ((ucontext_t *)context)->uc_mcontext.gregs;
    Jump key = {.place = (uint8_t *)registers[REG_RIP] - 1};
    Jump *jump = bsearch(&key, jumps, jump_count, sizeof *jumps, by_place);
    if (!jump) abort();
    int near = jump->first == 0x0f;
    int taken = holds((near ? jump->place[1] : jump->first) & 15, (uint64_t)registers[REG_EFL]);
    int32_t distance = (int8_t)jump->place[1];
    if (near) memcpy(&distance, jump->place + 2, 4);
    registers[REG_RIP] = (greg_t)(jump->place + (near ? 6 : 2) + (taken ? distance : 0));
    if (!(jump->seen & (1 << taken))) {
        jump->seen |= (uint8_t)(1 << taken);
        jump->when[taken] = line_number;
        if (jump->seen == 3) *jump->place = jump->first;
    }
}

int main(int count, char **words) {
    if (count != 3) return 2;
    size_t lines;
    char *at = read_lines(words[1], &jump_count);
    jumps = calloc(jump_count + 1, sizeof *jumps);
    for (size_t i = 0; i < jump_count; i++, at += strlen(at) + 1) jumps[i].place = (uint8_t *)strtoull(at, NULL, 16);
    qsort(jumps, jump_count, sizeof *jumps, by_place);
    struct sigaction action = {.sa_sigaction = at_jump, .sa_flags = SA_SIGINFO | SA_NODEFER};
    sigaction(SIGTRAP, &action, NULL);
    uintptr_t from = (uintptr_t)jumps[0].place & ~(uintptr_t)4095, to = ((uintptr_t)jumps[jump_count - 1].place + 4096) & ~(uintptr_t)4095;
    if (mprotect((void *)from, to - from, PROT_READ | PROT_WRITE | PROT_EXEC)) {
        perror("mprotect");
        return 2;
    }
    for (size_t i = 0; i < jump_count; i++) {
        jumps[i].first = *jumps[i].place;
        *jumps[i].place = 0xcc;
    }
    char *line = read_lines(words[2], &lines);
    for (line_number = 1; line_number <= lines; line_number++) {
        size_t length = strlen(line);
        const char *wrong = make_call(line);
        if (wrong) {
            printf("line %zu, %s: %s\n", line_number, line, wrong);
            return 1;
        }
        line += length + 1;
    }
    for (size_t i = 0; i < jump_count; i++)
        for (int taken = 0; taken < 2; taken++)
            if (jumps[i].seen & (1 << taken)) printf("%zu %zx %s\n", jumps[i].when[taken], (size_t)jumps[i].place, taken ? "taken" : "passed");
    return 0;
}
