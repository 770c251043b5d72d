/* What examples/c uses of string.h. */
#ifndef STRING_H
#define STRING_H

#include <stddef.h>

int memcmp(const void *first, const void *second, size_t length);

#endif
