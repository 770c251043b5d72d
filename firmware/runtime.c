/* What the compiler asks for besides the program: memory copied and cleared, and the arithmetic that a 32-bit processor has no instruction
 * for. The linker leaves out what is not asked for. Compiled with -fno-builtin, so that no loop here becomes a call of itself. */
#include <stddef.h>
#include <stdint.h>

void *memcpy(void *to, const void *from, size_t length);
void *memmove(void *to, const void *from, size_t length);
void *memset(void *to, int value, size_t length);

enum { WORD = sizeof(uint32_t) };
typedef uint32_t __attribute__((may_alias)) word; /* any four bytes that stand on a multiple of four */

static int on_words(const void *first, const void *second) { return (((uintptr_t)first | (uintptr_t)second) % WORD) == 0; }

/* Word by word where both stand on words, and a byte at a time before and after. */
void *memcpy(void *to, const void *from, size_t length) {
    uint8_t *target = to;
    const uint8_t *source = from;
    if (((uintptr_t)target - (uintptr_t)source) % WORD == 0) {
        for (; length > 0 && !on_words(target, target); length--) *target++ = *source++;
        for (; length >= WORD; length -= WORD, target += WORD, source += WORD) *(word *)(void *)target = *(const word *)(const void *)source;
    }
    for (; length > 0; length--) *target++ = *source++;
    return to;
}

/* From the end where the target overlaps the end of the source. */
void *memmove(void *to, const void *from, size_t length) {
    uint8_t *target = to;
    const uint8_t *source = from;
    if ((uintptr_t)target - (uintptr_t)source >= length) return memcpy(to, from, length);
    if (((uintptr_t)target - (uintptr_t)source) % WORD == 0) {
        for (; length > 0 && !on_words(target + length, target + length); length--) target[length - 1] = source[length - 1];
        for (; length >= WORD; length -= WORD) *(word *)(void *)(target + length - WORD) = *(const word *)(const void *)(source + length - WORD);
    }
    for (; length > 0; length--) target[length - 1] = source[length - 1];
    return to;
}

void *memset(void *to, int value, size_t length) {
    uint8_t *target = to;
    uint32_t four = (uint8_t)value * UINT32_C(0x01010101);
    for (; length > 0 && !on_words(target, target); length--) *target++ = (uint8_t)value;
    for (; length >= WORD; length -= WORD, target += WORD) *(word *)(void *)target = four;
    for (; length > 0; length--) *target++ = (uint8_t)value;
    return to;
}

/* Long division in binary: the divisor is moved up under the number, and taken away where it fits, digit by digit. By 0 it answers 0; the
 * program has a trap before each division by 0. */
typedef struct {
    uint32_t low, high;
} halves;

static int below(halves a, halves b) { return a.high < b.high || (a.high == b.high && a.low < b.low); }
static halves twice(halves a) { return (halves){a.low << 1, a.high << 1 | a.low >> 31}; }
static halves half(halves a) { return (halves){a.low >> 1 | a.high << 31, a.high >> 1}; }
static halves minus(halves a, halves b) { return (halves){a.low - b.low, a.high - b.high - (a.low < b.low)}; }
static halves of(uint64_t number) { return (halves){(uint32_t)number, (uint32_t)(number >> 32)}; }
static uint64_t whole(halves a) { return (uint64_t)a.high << 32 | a.low; }

static uint64_t divide(uint64_t number, uint64_t divisor, uint64_t *rest) {
    halves left = of(number), step = of(divisor), quotient = {0, 0};
    int digits = 0;
    if (divisor == 0) return 0;
    while (step.high >> 31 == 0 && !below(left, twice(step))) {
        step = twice(step);
        digits++;
    }
    for (; digits >= 0; digits--) {
        quotient = twice(quotient);
        if (!below(left, step)) {
            left = minus(left, step);
            quotient.low |= 1;
        }
        step = half(step);
    }
    *rest = whole(left);
    return whole(quotient);
}

#ifdef __arm__

void __aeabi_memcpy(void *to, const void *from, size_t length);
void __aeabi_memmove(void *to, const void *from, size_t length);
void __aeabi_memset(void *to, size_t length, int value);
void __aeabi_memclr(void *to, size_t length);
void __aeabi_memcpy(void *to, const void *from, size_t length) { memcpy(to, from, length); }
void __aeabi_memmove(void *to, const void *from, size_t length) { memmove(to, from, length); }
void __aeabi_memset(void *to, size_t length, int value) { memset(to, value, length); }
void __aeabi_memclr(void *to, size_t length) { memset(to, 0, length); }

/* For what stands on a multiple of 4 or 8: the same. */
#define SAME(name, other) __typeof__(other) name __attribute__((alias(#other)))
SAME(__aeabi_memcpy4, __aeabi_memcpy);
SAME(__aeabi_memcpy8, __aeabi_memcpy);
SAME(__aeabi_memmove4, __aeabi_memmove);
SAME(__aeabi_memmove8, __aeabi_memmove);
SAME(__aeabi_memset4, __aeabi_memset);
SAME(__aeabi_memset8, __aeabi_memset);
SAME(__aeabi_memclr4, __aeabi_memclr);
SAME(__aeabi_memclr8, __aeabi_memclr);

/* The quotient in r0 and r1, the rest in r2 and r3: as a vector of two is returned. */
typedef uint64_t __attribute__((vector_size(16))) quotient_and_rest;
quotient_and_rest __aeabi_uldivmod(uint64_t number, uint64_t divisor);
quotient_and_rest __aeabi_uldivmod(uint64_t number, uint64_t divisor) {
    uint64_t rest = 0, quotient = divide(number, divisor, &rest);
    return (quotient_and_rest){quotient, rest};
}

#if __ARM_ARCH == 6 /* a Cortex-M0: no division, products of 32 bits, shifts of one word */

uint32_t __aeabi_uidiv(uint32_t number, uint32_t divisor);
uint64_t __aeabi_llsl(uint64_t number, int places);
uint64_t __aeabi_llsr(uint64_t number, int places);
uint64_t __aeabi_lmul(uint64_t first, uint64_t second);

uint32_t __aeabi_uidiv(uint32_t number, uint32_t divisor) {
    uint32_t quotient = 0;
    int digits = 0;
    if (divisor == 0) return 0;
    while (divisor >> 31 == 0 && number >= divisor << 1) {
        divisor <<= 1;
        digits++;
    }
    for (; digits >= 0; digits--) {
        quotient <<= 1;
        if (number >= divisor) {
            number -= divisor;
            quotient |= 1;
        }
        divisor >>= 1;
    }
    return quotient;
}

uint64_t __aeabi_llsl(uint64_t number, int places) {
    halves a = of(number);
    if (places >= 32) return whole((halves){0, a.low << (places - 32)});
    if (places == 0) return number;
    return whole((halves){a.low << places, a.high << places | a.low >> (32 - places)});
}

uint64_t __aeabi_llsr(uint64_t number, int places) {
    halves a = of(number);
    if (places >= 32) return whole((halves){a.high >> (places - 32), 0});
    if (places == 0) return number;
    return whole((halves){a.low >> places | a.high << (32 - places), a.high >> places});
}

/* The product of two words from the four products of their halves; of the upper words the lower word alone counts. */
static halves product(uint32_t a, uint32_t b) {
    uint32_t low = (a & 0xffff) * (b & 0xffff), cross = (a >> 16) * (b & 0xffff) + (low >> 16);
    uint32_t other = (a & 0xffff) * (b >> 16) + (cross & 0xffff);
    return (halves){other << 16 | (low & 0xffff), (a >> 16) * (b >> 16) + (cross >> 16) + (other >> 16)};
}

uint64_t __aeabi_lmul(uint64_t first, uint64_t second) {
    halves a = of(first), b = of(second), low = product(a.low, b.low);
    return whole((halves){low.low, low.high + a.low * b.high + a.high * b.low});
}

#endif

#else /* RISC-V, with the extension M */

uint64_t __udivdi3(uint64_t number, uint64_t divisor);
uint64_t __umoddi3(uint64_t number, uint64_t divisor);
uint64_t __udivdi3(uint64_t number, uint64_t divisor) {
    uint64_t rest = 0;
    return divide(number, divisor, &rest);
}
uint64_t __umoddi3(uint64_t number, uint64_t divisor) {
    uint64_t rest = 0;
    divide(number, divisor, &rest);
    return rest;
}

#endif
