/* nine_lines.c - 01's small program through the C calls: an image from standard input, four steps, four undos, nine lines.
 * Each line: steps that stand, PC, SR, mark. It keeps all records, and is to print what the Rattle program of that name prints. */
#include "ibezofanle.h"
#include <stdio.h>

static uint8_t block[IBZ_BLOCK_LENGTH], memory[65536], journal[4096];

static void line(unsigned standing, size_t mark) {
  printf("%u %08X %04X %zu\n", standing, (unsigned)ibz_get(block, IBZ_PC), (unsigned)ibz_get(block, IBZ_SR), mark);
}

int main(void) {
  unsigned standing = 0;
  size_t mark = 0;
  if (fread(memory, 1, sizeof memory, stdin) == 0 && ferror(stdin)) return 2;
  const struct ibz_reset_answer r = ibz_reset(block, sizeof block, memory, sizeof memory, IBZ_NO_ROM);
  line(standing, mark);
  for (int i = 0; i < 4; i++) {
    const struct ibz_step_answer a =
        ibz_step_keeping(block, sizeof block, r.lo, r.hi, memory, sizeof memory, IBZ_NO_ROM, 0, 0, journal, sizeof journal, mark);
    mark = a.mark;
    standing += a.number == IBZ_DONE;
    line(standing, mark);
  }
  for (int i = 0; i < 4; i++) {
    const struct ibz_undo_answer a = ibz_undo(block, sizeof block, r.lo, r.hi, memory, sizeof memory, IBZ_NO_ROM, journal, sizeof journal, mark);
    mark = a.mark;
    standing -= a.number == IBZ_DONE;
    line(standing, mark);
  }
  return 0;
}
