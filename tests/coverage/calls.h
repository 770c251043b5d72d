/* Calls from lines of text, made through include/pastaspur.h and checked against the answers that the lines have. reference/src/written.rs
 * says what stands in a line. `pack+` and `join+` have the target right behind the parts or the card: the code that copies looks how far
 * the two are apart. */
#ifndef CALLS_H
#define CALLS_H
#include <stddef.h>

/* The lines of a file, one after another, each ended by 0; how many there are is written. Ends the program where the file cannot be read. */
char *read_lines(const char *file, size_t *count);

/* Makes the call of a line, which is changed in reading. Answers 0 where everything is as stored: the number, the result, what was lent
 * for writing, and that nothing else was written. Otherwise what is not. */
const char *make_call(char *line);

#endif
