/* What the firmware uses of stddef.h. */
#ifndef FIRMWARE_STDDEF_H
#define FIRMWARE_STDDEF_H

typedef __SIZE_TYPE__ size_t;

#endif
