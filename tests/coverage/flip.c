/* flip JUMPS FILE MILLISECONDS: for each jump of JUMPS (its address, in hexadecimal) a child turns it round in its own copy of the code and
 * makes the calls of FILE, in so much processor time. A line for each: `ADDRESS LINE WHY`, the call that noticed; LINE is 0 where none did.
 * x86-64 Linux alone. */
#define _GNU_SOURCE
#include "calls.h"
#include <signal.h>
#include <stdint.h>
#include <stdio.h>
#include <stdlib.h>
#include <string.h>
#include <sys/mman.h>
#include <sys/time.h>
#include <sys/wait.h>
#include <unistd.h>

/* What a child says to its parent. */
typedef struct {
    size_t line;
    char why[120];
} Said;

/* Turns a conditional jump round: the lowest bit of its code says which way its condition goes. */
static void turn(uint8_t *jump) {
    uint8_t *page = (uint8_t *)((uintptr_t)jump & ~(uintptr_t)4095);
    if (mprotect(page, 8192, PROT_READ | PROT_WRITE | PROT_EXEC)) _exit(3);
    uint8_t *code = *jump == 0x0f ? jump + 1 : jump;
    if ((*jump == 0x0f && (*code & 0xf0) != 0x80) || (*jump != 0x0f && (*code & 0xf0) != 0x70)) _exit(3);
    *code ^= 1;
}

int main(int count, char **words) {
    if (count != 4) return 2;
    size_t jumps, lines;
    char *at = read_lines(words[1], &jumps), *calls = read_lines(words[2], &lines);
    long limit = atol(words[3]);
    Said *said = mmap(NULL, sizeof *said, PROT_READ | PROT_WRITE, MAP_SHARED | MAP_ANONYMOUS, -1, 0);
    if (said == MAP_FAILED) return 2;
    for (size_t i = 0; i < jumps; i++, at += strlen(at) + 1) {
        memset(said, 0, sizeof *said);
        fflush(stdout);
        pid_t child = fork();
        if (child < 0) {
            perror("fork");
            return 2;
        }
        if (!child) {
            struct itimerval time = {.it_value = {limit / 1000, limit % 1000 * 1000}};
            setitimer(ITIMER_VIRTUAL, &time, NULL);
            turn((uint8_t *)strtoull(at, NULL, 16));
            char *line = calls;
            for (said->line = 1; said->line <= lines; said->line++) {
                size_t length = strlen(line);
                const char *wrong = make_call(line);
                if (wrong) {
                    snprintf(said->why, sizeof said->why, "%s", wrong);
                    _exit(1);
                }
                line += length + 1;
            }
            _exit(0);
        }
        int status;
        waitpid(child, &status, 0);
        if (WIFEXITED(status) && WEXITSTATUS(status) == 3) {
            fprintf(stderr, "%s is no conditional jump\n", at);
            return 2;
        }
        if (WIFEXITED(status) && WEXITSTATUS(status) == 0) said->line = 0;
        if (WIFSIGNALED(status)) snprintf(said->why, sizeof said->why, "%s", WTERMSIG(status) == SIGVTALRM ? "does not end" : strsignal(WTERMSIG(status)));
        printf("%s %zu %s\n", at, said->line, said->why);
    }
    return 0;
}
