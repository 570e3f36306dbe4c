/* tests.h - what the tests share: a count of what holds, buffers between pages that can not be touched, numbers that look random. */
#ifndef TESTS_H
#define TESTS_H
#include "ibezofanle.h"
#include <stdio.h>
#include <stdlib.h>
#include <string.h>
#include <sys/mman.h>

static unsigned long holds, fails;

#define EXPECT(x) expect((x) != 0, __FILE__, __LINE__, #x)

static inline void expect(int ok, const char *file, int line, const char *what) {
  if (ok) {
    holds++;
  } else {
    fails++;
    printf("%s:%d: does not hold: %s\n", file, line, what);
  }
}

/* The last line of a test, and its exit status: a test that held nothing to anything fails too. */
static inline int verdict(const char *name) {
  printf("%s: %lu hold, %lu do not\n", name, holds, fails);
  return fails != 0 || holds == 0;
}

/* n bytes that end where pages that can not be touched begin (at_end), or that begin where such end. 64 KiB is a multiple of every
 * page size. */
static inline uint8_t *guarded(size_t n, int at_end) {
  const size_t page = 65536, room = (n + page - 1) / page * page;
  uint8_t *p = (uint8_t *)mmap(NULL, room + 2 * page, PROT_READ | PROT_WRITE, MAP_PRIVATE | MAP_ANONYMOUS, -1, 0);
  if (p == (uint8_t *)MAP_FAILED || mprotect(p, page, PROT_NONE) != 0 || mprotect(p + page + room, page, PROT_NONE) != 0) {
    puts("no memory for a guarded buffer");
    exit(2);
  }
  return at_end ? p + page + room - n : p + page;
}

/* Such n bytes, of which then not one can be written; and a way to write them again. */
static inline void may_write(uint8_t *p, size_t n, int at_end, int may) {
  const size_t page = 65536, room = (n + page - 1) / page * page;
  if (room != 0 && mprotect(at_end ? p + n - room : p, room, may ? PROT_READ | PROT_WRITE : PROT_READ) != 0) {
    puts("a guarded buffer can not be made a ROM");
    exit(2);
  }
}

/* A number that looks random (xorshift64*), and one below n. */
static uint64_t seed = 88172645463325252u;

static inline uint32_t any(void) {
  seed ^= seed >> 12;
  seed ^= seed << 25;
  seed ^= seed >> 27;
  return (uint32_t)(seed * 2685821657736338717u >> 32);
}

static inline uint32_t below(uint32_t n) { return (uint32_t)((uint64_t)any() * n >> 32); }

#ifdef WRONG
#include "wrong.h"
#endif
#endif
