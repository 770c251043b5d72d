/* What a proved program needs of the machine that it runs on, for a bare Cortex-M: qemu answers a breakpoint of its own number with the
 * files of the machine that it runs on (Arm's semihosting). */
#include <stddef.h>
#include <stdint.h>

enum { OPEN = 0x01, CLOSE = 0x02, WRITE = 0x05, READ = 0x06, EXIT = 0x20 };
enum { READ_BYTES = 1, WRITE_BYTES = 5 }; /* how a file is opened: "rb", "wb" */
enum { ENDED = 0x20026, FAULT_STATUS = 70 };

/* The system control block: on a Cortex-M0 an access that is not aligned is a fault. This bit makes it one on the Cortex-M3 that is emulated. */
#define CONFIGURATION (*(volatile uint32_t *)0xe000ed14)
enum { UNALIGNED_FAULTS = 8 };

int64_t read(int32_t file, uint8_t *to, uint64_t length);
int64_t write(int32_t file, const uint8_t *from, uint64_t length);
int32_t close(int32_t file);
int32_t open(const uint8_t *path, int32_t how, ...);
int32_t rattle_errno(void);
void rattle_set_errno(int32_t number);
_Noreturn void exit(int status);
int main(int count, char **words);

static int32_t ask(int32_t what, const void *with) {
    register int32_t asked __asm__("r0") = what;
    register const void *block __asm__("r1") = with;
    __asm__ volatile("bkpt 0xab" : "+r"(asked) : "r"(block) : "memory");
    return asked;
}

static int32_t open_file(const char *path, int32_t how) {
    uint32_t length = 0;
    while (path[length]) length++;
    const uint32_t block[] = {(uint32_t)path, (uint32_t)how, length};
    return ask(OPEN, block);
}

static int32_t display = -1; /* what is printed goes here, whatever its number */

/* Reading and writing answer how many bytes are left over. */
int64_t read(int32_t file, uint8_t *to, uint64_t length) {
    const uint32_t block[] = {(uint32_t)file, (uint32_t)to, (uint32_t)length};
    return (int64_t)length - ask(READ, block);
}

int64_t write(int32_t file, const uint8_t *from, uint64_t length) {
    (void)file;
    if (display < 0) display = open_file(":tt", WRITE_BYTES);
    const uint32_t block[] = {(uint32_t)display, (uint32_t)from, (uint32_t)length};
    return (int64_t)length - ask(WRITE, block);
}

int32_t close(int32_t file) {
    const uint32_t block[] = {(uint32_t)file};
    return ask(CLOSE, block);
}

int32_t open(const uint8_t *path, int32_t how, ...) {
    (void)how;
    return open_file((const char *)path, READ_BYTES);
}

int32_t rattle_errno(void) { return 0; }
void rattle_set_errno(int32_t number) { (void)number; }

_Noreturn void exit(int status) {
    const uint32_t block[] = {ENDED, (uint32_t)status};
    for (;;) ask(EXIT, block);
}

static _Noreturn void reset(void) {
#if __ARM_ARCH == 6
    CONFIGURATION |= UNALIGNED_FAULTS;
#endif
    exit(main(0, NULL));
}

static _Noreturn void fault(void) { exit(FAULT_STATUS); }

extern uint8_t stack_top[];
__attribute__((section(".vectors"), used)) static const void *const vectors[] = {
    stack_top, (const void *)reset, (const void *)fault, (const void *)fault, (const void *)fault, (const void *)fault, (const void *)fault,
};
