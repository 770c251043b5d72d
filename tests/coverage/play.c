/* play FILE: makes the calls of a file of lines. Ends with 1 at the first one that is not answered as stored. */
#include "calls.h"
#include <stdio.h>
#include <string.h>

int main(int count, char **words) {
    if (count != 2) return 2;
    size_t lines;
    char *line = read_lines(words[1], &lines);
    for (size_t i = 1; i <= lines; i++) {
        size_t length = strlen(line);
        const char *wrong = make_call(line);
        if (wrong) {
            printf("line %zu, %s: %s\n", i, line, wrong);
            return 1;
        }
        line += length + 1;
    }
    printf("%zu calls answered as stored\n", lines);
    return 0;
}
