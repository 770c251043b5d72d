/* What examples/c uses of stdlib.h. */
#ifndef STDLIB_H
#define STDLIB_H

_Noreturn void exit(int status);

#endif
