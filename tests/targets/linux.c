/* What a proved program needs of the machine that it runs on, asked of Linux directly: qemu-user answers as Linux does on its processor. So
 * a program is tested with no C library, which would have to be installed for each. */
#include <stddef.h>
#include <stdint.h>

typedef intptr_t word; /* what a call of Linux takes and answers */

#if defined __x86_64__
enum { READ = 0, WRITE = 1, CLOSE = 3, OPEN_AT = 257, EXIT = 60 };
static word linux_call(word call, word a, word b, word c, word d) {
    register word fourth __asm__("r10") = d;
    __asm__ volatile("syscall" : "+a"(call) : "D"(a), "S"(b), "d"(c), "r"(fourth) : "rcx", "r11", "memory");
    return call;
}
__asm__(".globl _start\n_start: mov %rsp, %rdi\n and $-16, %rsp\n call start\n");
#elif defined __aarch64__
enum { READ = 63, WRITE = 64, CLOSE = 57, OPEN_AT = 56, EXIT = 93 };
static word linux_call(word call, word a, word b, word c, word d) {
    register word number __asm__("x8") = call, first __asm__("x0") = a, second __asm__("x1") = b, third __asm__("x2") = c, fourth __asm__("x3") = d;
    __asm__ volatile("svc 0" : "+r"(first) : "r"(number), "r"(second), "r"(third), "r"(fourth) : "memory");
    return first;
}
__asm__(".globl _start\n_start: mov x0, sp\n bl start\n");
#elif defined __riscv
enum { READ = 63, WRITE = 64, CLOSE = 57, OPEN_AT = 56, EXIT = 93 };
static word linux_call(word call, word a, word b, word c, word d) {
    register word number __asm__("a7") = call, first __asm__("a0") = a, second __asm__("a1") = b, third __asm__("a2") = c, fourth __asm__("a3") = d;
    __asm__ volatile("ecall" : "+r"(first) : "r"(number), "r"(second), "r"(third), "r"(fourth) : "memory");
    return first;
}
__asm__(".globl _start\n_start: mv a0, sp\n call start\n");
#endif

enum { WORKING_FOLDER = -100, READ_ONLY = 0 };

int64_t read(int32_t file, uint8_t *to, uint64_t length);
int64_t write(int32_t file, const uint8_t *from, uint64_t length);
int32_t close(int32_t file);
int32_t open(const uint8_t *path, int32_t how, ...);
int32_t rattle_errno(void);
void rattle_set_errno(int32_t number);
_Noreturn void exit(int status);
int main(int count, char **words);
_Noreturn void start(word *stack);

int64_t read(int32_t file, uint8_t *to, uint64_t length) { return linux_call(READ, file, (word)to, (word)length, 0); }
int64_t write(int32_t file, const uint8_t *from, uint64_t length) { return linux_call(WRITE, file, (word)from, (word)length, 0); }
int32_t close(int32_t file) { return (int32_t)linux_call(CLOSE, file, 0, 0, 0); }

int32_t open(const uint8_t *path, int32_t how, ...) {
    (void)how;
    word file = linux_call(OPEN_AT, WORKING_FOLDER, (word)path, READ_ONLY, 0);
    return file < 0 ? -1 : (int32_t)file;
}

/* The program does the same whatever it was that failed. */
int32_t rattle_errno(void) { return 0; }
void rattle_set_errno(int32_t number) { (void)number; }

_Noreturn void exit(int status) {
    for (;;) linux_call(EXIT, status, 0, 0, 0);
}

/* Linux leaves the arguments' count on the stack, and their addresses behind it. */
_Noreturn void start(word *stack) { exit(main((int)stack[0], (char **)(stack + 1))); }
