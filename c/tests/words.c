/* words.c - each of the 65,536 operation words, in user and in supervisor state: whether a step refuses it, and by which vector, is what an
 * outside list of names says. The list is on standard input, runs of words and a name: `003c-003c ORItoCCR`. Each step is undone. */
#include "tests.h"

enum { MEMORY = 16384, JOURNAL = 4096, BLOCK = IBZ_BLOCK_LENGTH, AT = 0x400, USP = 0x2000, SSP = 0x3000, WORDS = 65536 };

static uint8_t block[BLOCK], memory[MEMORY], journal[JOURNAL], block_before[BLOCK], memory_before[MEMORY];

static void put(uint32_t at, unsigned word) {
  memory[at] = (uint8_t)(word >> 8);
  memory[at + 1] = (uint8_t)word;
}

static uint32_t get_long(uint32_t at) {
  return (uint32_t)memory[at] << 24 | (uint32_t)memory[at + 1] << 16 | (uint32_t)memory[at + 2] << 8 | memory[at + 3];
}

/* The vector by which an instruction of this name is refused, or 0: 003's illegal, privileged, 1010 and 1111. */
static uint32_t refused(const char *name, int supervisor) {
  static const char *const privileged[] = {"ANDItoSR", "EORItoSR", "ORItoSR", "MOVEtoSR", "MOVEtoUSP", "MOVEfromUSP", "RESET", "RTE", "STOP"};
  if (strcmp(name, "ILLEGAL") == 0) return 4;
  if (strcmp(name, "LINEA") == 0) return 10;
  if (strcmp(name, "LINEF") == 0) return 11;
  for (size_t i = 0; i < sizeof privileged / sizeof *privileged; i++)
    if (!supervisor && strcmp(name, privileged[i]) == 0) return 8;
  return 0;
}

/* One word, and what stands after it: $2000 is a good mask, displacement, index word and address, and lets STOP stop. */
static void try_word(unsigned word, const char *name, int supervisor) {
  const unsigned sr = supervisor ? 0x2700 : 0;
  const uint32_t wanted = refused(name, supervisor);
  const unsigned long failed = fails;
  put(AT, word);
  ibz_set(block, IBZ_SR, sr);
  memcpy(block_before, block, BLOCK);
  memcpy(memory_before, memory, MEMORY);
  const struct ibz_step_answer a = ibz_step(block, BLOCK, 0, MEMORY, memory, MEMORY, IBZ_NO_ROM, 0, 0, journal, JOURNAL, 0);
  const uint32_t vector = a.event == IBZ_EVENT_NONE || a.event == IBZ_EVENT_HALT ? 0 : a.event - 1;
  const int refuses = vector == 4 || vector == 8 || vector == 10 || vector == 11;
  EXPECT(a.number == IBZ_DONE);
  EXPECT((refuses ? vector : 0) == wanted);
  if (refuses) { /* its own address and SR are saved, and nothing else has changed */
    EXPECT(ibz_get(block, IBZ_SSP) == SSP - 6 && get_long(SSP - 4) == AT && ((unsigned)memory[SSP - 6] << 8 | memory[SSP - 5]) == sr);
    EXPECT(memcmp(block, block_before, 4 * IBZ_SSP) == 0);
  }
  const struct ibz_undo_answer u = ibz_undo(block, BLOCK, 0, MEMORY, memory, MEMORY, IBZ_NO_ROM, journal, JOURNAL, a.mark);
  EXPECT(u.number == IBZ_DONE && u.mark == 0);
  EXPECT(memcmp(block, block_before, BLOCK) == 0 && memcmp(memory, memory_before, MEMORY) == 0);
  if (fails != failed) printf("  at %04x %s, SR %04x\n", word, name, sr);
}

/* A line's first and last word, and its name; 0 if it is no such line. */
static int read_run(char *line, unsigned *first, unsigned *last, char **name) {
  char *end;
  *first = (unsigned)strtoul(line, &end, 16);
  if (*end != '-') return 0;
  *last = (unsigned)strtoul(end + 1, &end, 16);
  if (*end != ' ') return 0;
  *name = end + 1;
  for (end = *name; *end != '\0' && *end != '\n';) end++;
  *end = '\0';
  return 1;
}

int main(void) {
  unsigned first = 0, last = 0, next = 0;
  char line[64], *name = line;
  for (uint32_t d = 0; d < 8; d++) ibz_set(block, d, 2);
  for (uint32_t a = 8; a < 15; a++) ibz_set(block, a, 0x1000);
  ibz_set(block, IBZ_USP, USP);
  ibz_set(block, IBZ_SSP, SSP);
  ibz_set(block, IBZ_PC, AT);
  for (uint32_t at = AT + 2; at < AT + 12; at += 2) put(at, 0x2000);
  while (fails == 0 && fgets(line, sizeof line, stdin) != NULL) {
    EXPECT(read_run(line, &first, &last, &name) && first == next && first <= last && last < WORDS);
    for (unsigned word = first; fails == 0 && word <= last; word++) {
      try_word(word, name, 0);
      try_word(word, name, 1);
    }
    next = last + 1;
  }
  EXPECT(next == WORDS);
  return verdict("words");
}
