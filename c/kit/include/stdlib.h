/* stdlib.h - as much of C's as c/tests and c/examples use (kit/README). */
#ifndef KIT_STDLIB_H
#define KIT_STDLIB_H
#include <stddef.h>
_Noreturn void exit(int);
void *calloc(size_t, size_t);
void free(void *);
unsigned long strtoul(const char *, char **, int);
#endif
