/* threads.c - several machines at once, a thread each: every one ends as it does alone. Each runs, steps with interrupts and goes back
 * on an image from standard input, in another order than the others, with a journal so short that records are dropped. */
#include "tests.h"
#include <pthread.h>

enum { THREADS = 4, TURNS = 40, MEMORY = 65536, JOURNAL = 8192 };

struct machine {
  unsigned turn;
  size_t mark;
  uint64_t clocks, dropped; /* of all steps that were done */
  uint8_t block[IBZ_BLOCK_LENGTH], memory[MEMORY], journal[JOURNAL];
};

static struct machine at_once[THREADS], alone[THREADS];
static uint8_t image[MEMORY];

static void *work(void *p) {
  struct machine *x = (struct machine *)p;
  memcpy(x->memory, image, MEMORY);
  ibz_reset(x->block, sizeof x->block, x->memory, MEMORY, IBZ_NO_ROM);
  for (unsigned i = 0; i < TURNS; i++) {
    const struct ibz_run_answer a =
        ibz_run(x->block, sizeof x->block, 0, MEMORY, x->memory, MEMORY, IBZ_NO_ROM, 300 + 7 * x->turn, 0xFFFFFFFFu, x->journal, JOURNAL, x->mark);
    const struct ibz_step_answer s = ibz_step(x->block, sizeof x->block, 0, MEMORY, x->memory, MEMORY, IBZ_NO_ROM, (i + x->turn) % 8, (uint8_t)i,
                                              x->journal, JOURNAL, a.mark);
    x->mark = s.mark;
    x->clocks += a.clocks + s.clocks;
    x->dropped += a.dropped + s.dropped;
    for (unsigned k = 0; k < 250 + x->turn; k++)
      x->mark = ibz_undo(x->block, sizeof x->block, 0, MEMORY, x->memory, MEMORY, IBZ_NO_ROM, x->journal, JOURNAL, x->mark).mark;
  }
  return NULL;
}

int main(void) {
  pthread_t threads[THREADS];
  EXPECT(fread(image, 1, MEMORY, stdin) > 8);
  for (unsigned i = 0; i < THREADS; i++) at_once[i].turn = alone[i].turn = i;
  for (unsigned i = 0; i < THREADS; i++) EXPECT(pthread_create(&threads[i], NULL, work, &at_once[i]) == 0);
  for (unsigned i = 0; i < THREADS; i++) work(&alone[i]);
  for (unsigned i = 0; i < THREADS; i++) EXPECT(pthread_join(threads[i], NULL) == 0);
  for (unsigned i = 0; i < THREADS; i++) EXPECT(memcmp(&at_once[i], &alone[i], sizeof alone[i]) == 0 && alone[i].mark > 0 && alone[i].dropped > 0);
  EXPECT(memcmp(alone[0].block, alone[1].block, sizeof alone[0].block) != 0 && alone[0].clocks != alone[1].clocks); /* not all the same */
  return verdict("threads");
}
