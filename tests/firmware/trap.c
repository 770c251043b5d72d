/* A program that traps: the board has to report it and to stop. */
#include "port.h"

int main(void);
int main(void) { __builtin_trap(); }
