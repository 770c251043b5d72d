/* As much of C's library as examples/c uses, over read and write, so that they are tested where no C library is installed. */
#include <stdarg.h>
#include <stdio.h>
#include <stdlib.h>
#include <string.h>
#include <stdint.h>

int64_t read(int32_t file, uint8_t *to, uint64_t length);
int64_t write(int32_t file, const uint8_t *from, uint64_t length);
int32_t close(int32_t file);
int32_t open(const uint8_t *path, int32_t how, ...);

enum { READ_ONLY = 0 };

struct file {
    int32_t number;
};
static FILE opened, errors = {2};
FILE *const stderr = &errors;

FILE *fopen(const char *path, const char *mode) {
    (void)mode;
    opened.number = open((const uint8_t *)path, READ_ONLY);
    return opened.number < 0 ? NULL : &opened;
}

size_t fread(void *to, size_t size, size_t count, FILE *file) {
    size_t had = 0;
    while (had < size * count) {
        int64_t more = read(file->number, (uint8_t *)to + had, size * count - had);
        if (more <= 0) break;
        had += (size_t)more;
    }
    return had / size;
}

int fclose(FILE *file) { return close(file->number); }

int memcmp(const void *first, const void *second, size_t length) {
    const uint8_t *a = first, *b = second;
    for (; length > 0; length--, a++, b++)
        if (*a != *b) return *a < *b ? -1 : 1;
    return 0;
}

static int put(int32_t file, const char *text, size_t length, size_t width) {
    write(file, (const uint8_t *)text, length);
    for (; length < width; length++) write(file, (const uint8_t *)" ", 1);
    return (int)length;
}

static size_t length_of(const char *text) {
    size_t length = 0;
    while (text[length]) length++;
    return length;
}

/* Of the formats %c, %s, %u and %lu, and %-Ns, which fills up to N places. */
static int print(int32_t file, const char *format, va_list values) {
    int printed = 0;
    for (; *format; format++) {
        size_t width = 0;
        int is_long = 0;
        if (*format != '%') {
            printed += put(file, format, 1, 0);
            continue;
        }
        for (format++; *format == '-' || (*format >= '0' && *format <= '9'); format++)
            if (*format != '-') width = 10 * width + (size_t)(*format - '0');
        if (*format == 'l') is_long = 1, format++;
        if (*format == 'c') {
            char letter = (char)va_arg(values, int);
            printed += put(file, &letter, 1, width);
        } else if (*format == 's') {
            const char *text = va_arg(values, const char *);
            printed += put(file, text, length_of(text), width);
        } else if (*format == 'u') {
            unsigned long number = is_long ? va_arg(values, unsigned long) : va_arg(values, unsigned);
            char digits[20], *digit = digits + sizeof digits;
            do {
                unsigned long tens = number / 10;
                *--digit = (char)('0' + (number - 10 * tens));
                number = tens;
            } while (number > 0);
            printed += put(file, digit, (size_t)(digits + sizeof digits - digit), width);
        } else {
            exit(3); /* a format that the examples did not have */
        }
    }
    return printed;
}

int printf(const char *format, ...) {
    va_list values;
    va_start(values, format);
    int printed = print(1, format, values);
    va_end(values);
    return printed;
}

int fprintf(FILE *file, const char *format, ...) {
    va_list values;
    va_start(values, format);
    int printed = print(file->number, format, values);
    va_end(values);
    return printed;
}
