/* The exact integers of C11's stdint.h that the firmware uses, by the compiler's own names: the kit's clang comes without headers. */
#ifndef FIRMWARE_STDINT_H
#define FIRMWARE_STDINT_H

typedef __INT32_TYPE__ int32_t;
typedef __INT64_TYPE__ int64_t;
typedef __UINT8_TYPE__ uint8_t;
typedef __UINT16_TYPE__ uint16_t;
typedef __UINT32_TYPE__ uint32_t;
typedef __UINT64_TYPE__ uint64_t;
typedef __UINTPTR_TYPE__ uintptr_t;

#define INT32_MAX __INT32_MAX__
#define UINT32_C(number) number##U
#define UINT64_C(number) number##ULL

#endif
