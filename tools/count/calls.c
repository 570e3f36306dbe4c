/* calls.c - calls from C, so many of one kind, for `calls` beside it to count: calls KIND COUNT < IMAGE
 * Kinds: step, a step; undo, a step, its undo and the step again; run, COUNT steps in runs; step_keeping and run_keeping, the same by
 * the calls that keep all records; loop, nothing; nine and memory, a step that is refused by 9 and by 1. The mark is 0 before each, and
 * before each run, so that there is room. It tells PC. */
#include "ibezofanle.h"
#include <stdio.h>
#include <stdlib.h>
#include <string.h>

enum { MEMORY = 65536 };

static uint8_t block[IBZ_BLOCK_LENGTH], memory[MEMORY], journal[1 << 26];

int main(int argc, char **argv) {
  if (argc != 3 || fread(memory, 1, MEMORY, stdin) < 8) return 2;
  const char *kind = argv[1];
  const size_t block_length = strcmp(kind, "nine") == 0 ? 0 : sizeof block, length = strcmp(kind, "memory") == 0 ? 0 : MEMORY;
  const int undo = strcmp(kind, "undo") == 0, loop = strcmp(kind, "loop") == 0, run = strcmp(kind, "run") == 0;
  const int step_keeping = strcmp(kind, "step_keeping") == 0, run_keeping = strcmp(kind, "run_keeping") == 0;
  const int step = !loop && !step_keeping;
  unsigned long left = strtoul(argv[2], NULL, 10);
  volatile size_t mark = 0;
  ibz_reset(block, sizeof block, memory, MEMORY, IBZ_NO_ROM);
  while ((run || run_keeping) && left > 0) {
    const uint32_t budget = left < IBZ_BUDGET_MOST ? (uint32_t)left : IBZ_BUDGET_MOST;
    const struct ibz_run_answer a =
        run ? ibz_run(block, sizeof block, 0, MEMORY, memory, MEMORY, IBZ_NO_ROM, budget, 0xFFFFFFFFu, journal, sizeof journal, 0)
            : ibz_run_keeping(block, sizeof block, 0, MEMORY, memory, MEMORY, IBZ_NO_ROM, budget, 0xFFFFFFFFu, journal, sizeof journal, 0);
    if (a.number != 0 || a.steps != budget) return 3;
    left -= a.steps;
  }
  for (; left > 0; left--) {
    mark = 0;
    if (step) mark = ibz_step(block, block_length, 0, (uint32_t)length, memory, length, IBZ_NO_ROM, 0, 0, journal, 1024, mark).mark;
    if (step_keeping) mark = ibz_step_keeping(block, sizeof block, 0, MEMORY, memory, MEMORY, IBZ_NO_ROM, 0, 0, journal, 1024, mark).mark;
    if (undo) mark = ibz_undo(block, sizeof block, 0, MEMORY, memory, MEMORY, IBZ_NO_ROM, journal, 1024, mark).mark;
    if (undo) mark = ibz_step(block, sizeof block, 0, MEMORY, memory, MEMORY, IBZ_NO_ROM, 0, 0, journal, 1024, mark).mark;
  }
  printf("%08X\n", (unsigned)ibz_get(block, IBZ_PC));
  return 0;
}
