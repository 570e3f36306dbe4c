/* sys/mman.h - as much of Linux' as c/tests use, for x86-64 (kit/README). */
#ifndef KIT_SYS_MMAN_H
#define KIT_SYS_MMAN_H
#include <stddef.h>
#define PROT_NONE 0
#define PROT_READ 1
#define PROT_WRITE 2
#define MAP_PRIVATE 2
#define MAP_ANONYMOUS 32
#define MAP_FAILED ((void *)-1)
void *mmap(void *, size_t, int, int, int, long);
int mprotect(void *, size_t, int);
#endif
