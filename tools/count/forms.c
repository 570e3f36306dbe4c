/* forms.c - a long journal, converted so many times, for `forms` beside it to count: forms WAY RECORDS TIMES < IMAGE
 * Ways: two, from form 1 into form 2; one, from form 2 into form 1. The records are those of the image's first 1,000 steps, again and again,
 * so that journals of all lengths have the same ones. It tells the bytes of both forms. Each conversion is held to be done. */
#include "ibezofanle.h"
#include <stdio.h>
#include <stdlib.h>
#include <string.h>

enum { MEMORY = 65536, JOURNAL = 1 << 25, STEPS = 1000 };

static uint8_t block[IBZ_BLOCK_LENGTH], memory[MEMORY], one[JOURNAL], two[JOURNAL];

int main(int argc, char **argv) {
  if (argc != 4 || fread(memory, 1, MEMORY, stdin) < 8) return 2;
  const unsigned long rows = strtoul(argv[2], NULL, 10) / STEPS;
  ibz_reset(block, sizeof block, memory, MEMORY, IBZ_NO_ROM);
  const struct ibz_run_answer a =
      ibz_run_keeping(block, sizeof block, 0, MEMORY, memory, MEMORY, IBZ_NO_ROM, STEPS, 0xFFFFFFFFu, one, sizeof one, 0);
  if (a.number != 0 || a.steps != STEPS || a.mark > sizeof one / rows) return 3;
  const size_t length = rows * a.mark;
  for (size_t i = a.mark; i < length; i++) one[i] = one[i - a.mark];
  const struct ibz_form_answer b = ibz_to_form_two(one, length, two, sizeof two);
  if (b.number != 0) return 4;
  for (unsigned long left = strtoul(argv[3], NULL, 10); left > 0; left--) {
    const struct ibz_form_answer c = strcmp(argv[1], "two") == 0 ? ibz_to_form_two(one, length, two, sizeof two)
                                                                 : ibz_to_form_one(two, b.length, one, sizeof one);
    if (c.number != 0) return 5;
  }
  printf("%zu %zu\n", length, b.length);
  return 0;
}
