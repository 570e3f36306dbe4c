/* calls.c - the calls by hand: every refusal by itself and in the order of the table, 01's examples, the way back on other blocks,
 * and what the header declares. Steps and runs keep all records, as 01 has them, and have no ROM; dropping.c tries those that drop, rom.c
 * the ROM and the part, forms.c the conversions. */
#include "tests.h"

enum { MEMORY = 65536, JOURNAL = 4096, BLOCK = IBZ_BLOCK_LENGTH };

/* One byte more than is lent, to be seen to stay. */
static uint8_t block[BLOCK + 1], memory[MEMORY], journal[JOURNAL];
static uint8_t old_block[BLOCK + 1], old_memory[MEMORY], old_journal[JOURNAL];
static uint8_t rom[IBZ_ROM_MOST + 2];

static void put(uint32_t at, unsigned word) {
  memory[at] = (uint8_t)(word >> 8);
  memory[at + 1] = (uint8_t)word;
}

static void keep(void) {
  memcpy(old_block, block, sizeof block);
  memcpy(old_memory, memory, sizeof memory);
  memcpy(old_journal, journal, sizeof journal);
}

static int kept(void) {
  return memcmp(old_block, block, sizeof block) == 0 && memcmp(old_memory, memory, sizeof memory) == 0
         && memcmp(old_journal, journal, sizeof journal) == 0;
}

/* All slots 0 but PC, and one operation word there. */
static void fresh(unsigned word) {
  memset(block, 0, sizeof block);
  memset(memory, 0, sizeof memory);
  memset(journal, 0xEE, sizeof journal);
  ibz_set(block, IBZ_PC, 0x200);
  put(0x200, word);
  keep();
}

static struct ibz_step_answer step(uint32_t level, uint8_t vector, size_t mark) {
  return ibz_step_keeping(block, BLOCK, 0, MEMORY, memory, MEMORY, IBZ_NO_ROM, level, vector, journal, JOURNAL, mark);
}

static struct ibz_undo_answer undo(size_t mark) { return ibz_undo(block, BLOCK, 0, MEMORY, memory, MEMORY, IBZ_NO_ROM, journal, JOURNAL, mark); }

/* A refusal: its number, the mark as given, 0 for the rest, and no byte altered. */
static int step_refused(struct ibz_step_answer a, uint32_t number, size_t mark) {
  return a.number == number && a.event == 0 && a.mark == mark && a.clocks == 0 && a.moved == 0 && a.dropped == 0 && kept();
}

static int run_refused(struct ibz_run_answer a, uint32_t number, size_t mark) {
  return a.number == number && a.reason == 0 && a.steps == 0 && a.mark == mark && a.clocks == 0 && a.moved == 0 && a.dropped == 0 && kept();
}

static int undo_refused(struct ibz_undo_answer a, uint32_t number, size_t mark) {
  return a.number == number && a.mark == mark && kept();
}

static int try_refused(struct ibz_try_answer a, uint32_t number, size_t mark) {
  return a.end == IBZ_END_REFUSED && a.number == number && a.vector == 0 && a.steps == 0 && a.mark == mark && kept();
}

/* The window stays the one that was given. */
static int back_refused(struct ibz_back_answer a, uint32_t number, size_t mark, uint32_t lo, uint32_t hi) {
  return a.number == number && a.undone == 0 && a.mark == mark && a.lo == lo && a.hi == hi && kept();
}

/* ---- the order of the table: every set of refusals that can apply together gives the first of 9, 1, 12, 2, 10, 3, .. */

static const unsigned order[] = {9, 1, 12, 2, 10, 3, 4, 5, 6, 7, 8};

static unsigned first(unsigned set) {
  for (unsigned i = 0; i < sizeof order / sizeof *order; i++)
    if (set >> order[i] & 1u) return order[i];
  return 0;
}

/* Sets up what makes the refusals of a set apply; SR or mode for 2, by turns. */
static void set_up(unsigned set) {
  fresh(0x7001);
  if (set >> 6 & 1u) ibz_set(block, IBZ_MODE, IBZ_MODE_HALTED);
  if (set >> 2 & 1u) ibz_set(block, set >> 6 & 1u || set & 2u ? IBZ_SR : IBZ_MODE, 0x20);
  if (set >> 8 & 1u) memset(journal, 0x80, sizeof journal);
  else memset(journal, 0, 16); /* 00 00: a record that changes nothing */
  keep();
}

/* Where 10 is in the set, a window in one of four ways: its end before its start or beyond memory, by 1 or by far. Where 12 is, a ROM of odd
 * length or one that is too long, by turns; else in the last two ways a good one, whose end the window's end is judged by. */
static void orders_of(unsigned set, unsigned way) {
  const size_t block_length = set >> 9 & 1u ? 79 : BLOCK, memory_length = set >> 1 & 1u ? 1023 : MEMORY;
  const size_t rom_length = set >> 12 & 1u ? (way % 2 == 0 ? 1 : IBZ_ROM_MOST + 2) : way < 2 ? 0 : 2;
  const uint32_t end = rom_length == 0 ? (uint32_t)memory_length : IBZ_ROM_START + (uint32_t)rom_length;
  const struct { uint32_t lo, hi; } windows[] = {{8, 7}, {0, end + 1}, {0xFFFFFFFFu, end}, {0xFFFFFFFFu, 0xFFFFFFFFu}, {0, end}};
  const uint32_t lo = windows[set >> 10 & 1u ? way : 4].lo, hi = windows[set >> 10 & 1u ? way : 4].hi;
  const unsigned n = first(set);
  set_up(set);
  if ((set & ~0x1202u) == 0) { /* reset: 9, 1, 12 */
    const struct ibz_reset_answer a = ibz_reset(block, block_length, memory, memory_length, rom, rom_length);
    EXPECT(a.number == n && (n != 9 || kept()) && a.lo == 0 && a.hi == (n == 0 ? MEMORY : 0));
    set_up(set);
  }
  if ((set & ~0x167Eu) == 0) { /* step: 9, 1, 12, 2, 10, 3 to 6; a mark beyond the journal leaves less than 536 too */
    const size_t length = set >> 5 & 1u ? 600 : JOURNAL, mark = set >> 4 & 1u ? length + 1 : set >> 5 & 1u ? 65 : 64;
    const uint32_t level = set >> 3 & 1u ? 8 : 0, count = set >> 3 & 1u ? 1000001 : 1;
    const struct ibz_step_answer a =
        ibz_step_keeping(block, block_length, lo, hi, memory, memory_length, rom, rom_length, level, 0, journal, length, mark);
    EXPECT(n == 0 ? a.number == 0 : step_refused(a, n, mark));
    set_up(set); /* and a try */
    const struct ibz_try_answer b = ibz_try(block, block_length, lo, hi, memory, memory_length, rom, rom_length, count, journal, length, mark);
    EXPECT(n == 0 ? b.end == IBZ_END_SPENT && b.number == 0 && b.steps == 1 : try_refused(b, n, mark));
    set_up(set);
  }
  if ((set & ~0x177Eu) == 0) { /* step that drops: 9, 1, 12, 2, 10, 3 to 6, 8; a journal with room is not judged */
    const size_t length = set >> 5 & 1u ? 535 : 600, mark = set >> 4 & 1u ? length + 1 : set >> 8 & 1u ? 65 : 64;
    const uint32_t level = set >> 3 & 1u ? 8 : 0;
    const struct ibz_step_answer a = ibz_step(block, block_length, lo, hi, memory, memory_length, rom, rom_length, level, 0, journal, length, mark);
    EXPECT(n == 0 ? a.number == 0 && a.moved == 0 && a.dropped == 0 : step_refused(a, n, mark));
    set_up(set);
  }
  if ((set & ~0x161Eu) == 0) { /* run: 9, 1, 12, 2, 10, 3, 4 */
    const size_t mark = set >> 4 & 1u ? JOURNAL + 1 : 0;
    const uint32_t budget = set >> 3 & 1u ? 1000001 : 1;
    const struct ibz_run_answer a =
        ibz_run_keeping(block, block_length, lo, hi, memory, memory_length, rom, rom_length, budget, 0, journal, JOURNAL, mark);
    EXPECT(n == 0 ? a.number == 0 && a.reason != 0 : run_refused(a, n, mark));
    set_up(set);
    const struct ibz_run_answer b = ibz_run(block, block_length, lo, hi, memory, memory_length, rom, rom_length, budget, 0, journal, JOURNAL, mark);
    EXPECT(n == 0 ? b.number == 0 && b.reason != 0 : run_refused(b, n, mark));
    set_up(set);
  }
  if ((set & ~0x1796u) == 0 && (set & 0x90u) != 0x90u) { /* undo: 9, 1, 12, 2, 10, 4, 7, 8; a mark of 0 is not beyond a journal */
    const size_t mark = set >> 4 & 1u ? 9 : set >> 7 & 1u ? 0 : 8;
    const struct ibz_undo_answer a = ibz_undo(block, block_length, lo, hi, memory, memory_length, rom, rom_length, journal, 8, mark);
    EXPECT(n == 0 ? a.number == 0 && a.mark == 6 : undo_refused(a, n, mark));
    set_up(set); /* and taking back */
    const struct ibz_back_answer b = ibz_take_back(block, block_length, lo, hi, memory, memory_length, rom, rom_length, journal, 8, mark, 2, 5, 6);
    EXPECT(n == 0 ? b.number == 0 && b.undone == 2 && b.mark == 4 && b.lo == 5 && b.hi == 6 : back_refused(b, n, mark, lo, hi));
  }
}

static void orders(void) {
  for (unsigned set = 0; set < 1u << 13; set++)
    for (unsigned way = 0; way < 4; way++) orders_of(set, way);
}

/* ---- each refusal by itself, at its edges */

static void blocks(void) {
  static const size_t lengths[] = {0, 1, 79, 81};
  fresh(0x7001);
  for (unsigned i = 0; i < sizeof lengths / sizeof *lengths; i++) {
    const struct ibz_reset_answer r = ibz_reset(block, lengths[i], memory, MEMORY, IBZ_NO_ROM);
    EXPECT(r.number == IBZ_NO_BLOCK && r.lo == 0 && r.hi == 0 && kept());
    EXPECT(step_refused(ibz_step_keeping(block, lengths[i], 0, MEMORY, memory, MEMORY, IBZ_NO_ROM, 0, 0, journal, JOURNAL, 0), IBZ_NO_BLOCK, 0));
    EXPECT(run_refused(ibz_run_keeping(block, lengths[i], 0, MEMORY, memory, MEMORY, IBZ_NO_ROM, 1, 0, journal, JOURNAL, 0), IBZ_NO_BLOCK, 0));
    EXPECT(step_refused(ibz_step(block, lengths[i], 0, MEMORY, memory, MEMORY, IBZ_NO_ROM, 0, 0, journal, JOURNAL, JOURNAL), IBZ_NO_BLOCK, JOURNAL));
    EXPECT(run_refused(ibz_run(block, lengths[i], 0, MEMORY, memory, MEMORY, IBZ_NO_ROM, 1, 0, journal, JOURNAL, JOURNAL), IBZ_NO_BLOCK, JOURNAL));
    EXPECT(undo_refused(ibz_undo(block, lengths[i], 0, MEMORY, memory, MEMORY, IBZ_NO_ROM, journal, JOURNAL, 2), IBZ_NO_BLOCK, 2));
    EXPECT(try_refused(ibz_try(block, lengths[i], 0, MEMORY, memory, MEMORY, IBZ_NO_ROM, 1, journal, JOURNAL, 3), IBZ_NO_BLOCK, 3));
    EXPECT(back_refused(ibz_take_back(block, lengths[i], 3, 4, memory, MEMORY, IBZ_NO_ROM, journal, JOURNAL, 2, 0, 5, 6), IBZ_NO_BLOCK, 2, 3, 4));
  }
  /* nothing else is looked at, and a pointer with length 0 may be NULL */
  EXPECT(ibz_reset(NULL, 0, NULL, 0, IBZ_NO_ROM).number == IBZ_NO_BLOCK);
  EXPECT(step_refused(ibz_step_keeping(NULL, 0, 0, 0, NULL, 0, IBZ_NO_ROM, 9, 0, NULL, 0, 7), IBZ_NO_BLOCK, 7));
  EXPECT(run_refused(ibz_run_keeping(NULL, 0, 0, 0, NULL, 0, IBZ_NO_ROM, 2000000, 0, NULL, 0, 7), IBZ_NO_BLOCK, 7));
  EXPECT(step_refused(ibz_step(NULL, 0, 0, 0, NULL, 0, IBZ_NO_ROM, 9, 0, NULL, 0, 7), IBZ_NO_BLOCK, 7));
  EXPECT(run_refused(ibz_run(NULL, 0, 0, 0, NULL, 0, IBZ_NO_ROM, 2000000, 0, NULL, 0, 7), IBZ_NO_BLOCK, 7));
  EXPECT(undo_refused(ibz_undo(NULL, 0, 0, 0, NULL, 0, IBZ_NO_ROM, NULL, 0, 7), IBZ_NO_BLOCK, 7));
  EXPECT(try_refused(ibz_try(NULL, 0, 9, 8, NULL, 0, IBZ_NO_ROM, 2000000, NULL, 0, 7), IBZ_NO_BLOCK, 7));
  EXPECT(back_refused(ibz_take_back(NULL, 0, 9, 8, NULL, 0, IBZ_NO_ROM, NULL, 0, 7, 1, 5, 6), IBZ_NO_BLOCK, 7, 9, 8));
  EXPECT(step_refused(ibz_step_keeping(block, BLOCK, 0, 0, NULL, 0, IBZ_NO_ROM, 0, 0, journal, JOURNAL, 0), IBZ_BAD_MEMORY, 0));
  EXPECT(run_refused(ibz_run_keeping(block, BLOCK, 0, 0, NULL, 0, IBZ_NO_ROM, 1, 0, journal, JOURNAL, 0), IBZ_BAD_MEMORY, 0));
  EXPECT(undo_refused(ibz_undo(block, BLOCK, 0, 0, NULL, 0, IBZ_NO_ROM, journal, JOURNAL, 2), IBZ_BAD_MEMORY, 2));
  EXPECT(step_refused(ibz_step_keeping(block, BLOCK, 0, MEMORY, memory, MEMORY, IBZ_NO_ROM, 0, 0, NULL, 0, 0), IBZ_JOURNAL_FULL, 0));
  EXPECT(undo_refused(ibz_undo(block, BLOCK, 0, MEMORY, memory, MEMORY, IBZ_NO_ROM, NULL, 0, 0), IBZ_NO_RECORD, 0));
  EXPECT(ibz_run_keeping(block, BLOCK, 0, MEMORY, memory, MEMORY, IBZ_NO_ROM, 1, 0, NULL, 0, 0).reason == IBZ_REASON_JOURNAL && kept());
  EXPECT(step_refused(ibz_step(block, BLOCK, 0, MEMORY, memory, MEMORY, IBZ_NO_ROM, 0, 0, NULL, 0, 0), IBZ_JOURNAL_FULL, 0));
  EXPECT(ibz_run(block, BLOCK, 0, MEMORY, memory, MEMORY, IBZ_NO_ROM, 1, 0, NULL, 0, 0).reason == IBZ_REASON_JOURNAL && kept());
}

static void memories(void) {
  static const struct { size_t length; uint32_t number; } cases[] = {
      {0, 1}, {1, 1}, {1022, 1}, {1023, 1}, {1024, 0}, {1025, 1}, {1026, 0},
      {16777214, 0}, {16777215, 1}, {16777216, 0}, {16777217, 1}, {16777218, 1}};
  uint8_t *large = guarded(16777218, 1);
  for (unsigned i = 0; i < sizeof cases / sizeof *cases; i++) {
    fresh(0x7001);
    large[0x200] = 0x70, large[0x201] = 1;
    const uint32_t hi = (uint32_t)cases[i].length;
    const struct ibz_step_answer a = ibz_step_keeping(block, BLOCK, 0, hi, large, cases[i].length, IBZ_NO_ROM, 0, 0, journal, JOURNAL, 0);
    EXPECT(cases[i].number == 0 ? a.number == 0 && ibz_get(block, IBZ_D0) == 1 : step_refused(a, 1, 0));
    const struct ibz_reset_answer r = ibz_reset(block, BLOCK, large, cases[i].length, IBZ_NO_ROM);
    EXPECT(r.number == cases[i].number && ibz_get(block, IBZ_MODE) == (r.number == 0 ? 0u : 2u));
    EXPECT(r.lo == 0 && r.hi == (r.number == 0 ? hi : 0u)); /* the window: all of memory, or nothing */
  }
}

static void states(void) {
  for (unsigned bit = 0; bit < 32; bit++) { /* SR, a whole 32-bit number */
    fresh(0x7001);
    ibz_set(block, IBZ_SR, (uint32_t)1 << bit);
    keep();
    EXPECT((0xA71Fu >> bit & 1u) ? step(0, 0, 0).number == 0 : step_refused(step(0, 0, 0), IBZ_BAD_STATE, 0));
  }
  static const uint32_t modes[] = {3, 4, 0x100, 0x10000, 0x1000000, 0x80000000u, 0xFFFFFFFFu, 0x100000u + 2};
  for (unsigned i = 0; i < sizeof modes / sizeof *modes; i++) { /* mode too */
    fresh(0x7001);
    ibz_set(block, IBZ_MODE, modes[i]);
    keep();
    EXPECT(step_refused(step(0, 0, 0), IBZ_BAD_STATE, 0));
    EXPECT(run_refused(ibz_run_keeping(block, BLOCK, 0, MEMORY, memory, MEMORY, IBZ_NO_ROM, 1, 0, journal, JOURNAL, 0), IBZ_BAD_STATE, 0));
    EXPECT(undo_refused(undo(2), IBZ_BAD_STATE, 2));
  }
}

static void requests(void) {
  static const uint32_t levels[] = {8, 9, 255, 256, 257, 0x10000, 0x80000000u, 0xFFFFFFFFu}; /* the whole number is judged */
  static const uint32_t budgets[] = {1000001, 1000002, 0x80000000u, 0xFFFFFFFFu};
  fresh(0x60FE);
  for (unsigned i = 0; i < sizeof levels / sizeof *levels; i++) EXPECT(step_refused(step(levels[i], 0, 0), IBZ_BAD_REQUEST, 0));
  for (unsigned i = 0; i < sizeof budgets / sizeof *budgets; i++) {
    EXPECT(run_refused(ibz_run_keeping(block, BLOCK, 0, MEMORY, memory, MEMORY, IBZ_NO_ROM, budgets[i], 0, journal, JOURNAL, 0),
                       IBZ_BAD_REQUEST, 0));
    EXPECT(try_refused(ibz_try(block, BLOCK, 0, MEMORY, memory, MEMORY, IBZ_NO_ROM, budgets[i], journal, JOURNAL, 0), IBZ_BAD_REQUEST, 0));
  }
  EXPECT(step(7, 0, 0).number == 0);
  fresh(0x60FE);
  EXPECT(ibz_run_keeping(block, BLOCK, 0, MEMORY, memory, MEMORY, IBZ_NO_ROM, IBZ_BUDGET_MOST, 0, journal, JOURNAL, 0).reason == IBZ_REASON_JOURNAL);
}

static void marks(void) {
  fresh(0x7001);
  EXPECT(step_refused(step(0, 0, JOURNAL + 1), IBZ_BAD_MARK, JOURNAL + 1));
  EXPECT(step_refused(step(0, 0, SIZE_MAX), IBZ_BAD_MARK, SIZE_MAX));
  EXPECT(run_refused(ibz_run_keeping(block, BLOCK, 0, MEMORY, memory, MEMORY, IBZ_NO_ROM, 1, 0, journal, JOURNAL, SIZE_MAX),
                     IBZ_BAD_MARK, SIZE_MAX));
  EXPECT(undo_refused(undo(JOURNAL + 1), IBZ_BAD_MARK, JOURNAL + 1));
  EXPECT(undo_refused(undo(SIZE_MAX), IBZ_BAD_MARK, SIZE_MAX));
  EXPECT(undo_refused(undo(0), IBZ_NO_RECORD, 0));
  EXPECT(step_refused(step(0, 0, JOURNAL), IBZ_JOURNAL_FULL, JOURNAL));
  EXPECT(step_refused(step(0, 0, JOURNAL - 535), IBZ_JOURNAL_FULL, JOURNAL - 535));
  EXPECT(step_refused(ibz_step_keeping(block, BLOCK, 0, MEMORY, memory, MEMORY, IBZ_NO_ROM, 0, 0, journal, 535, 0), IBZ_JOURNAL_FULL, 0));
  EXPECT(ibz_step_keeping(block, BLOCK, 0, MEMORY, memory, MEMORY, IBZ_NO_ROM, 0, 0, journal, 536, 0).number == IBZ_DONE);
  EXPECT(ibz_get(block, IBZ_D0) == 1);
  fresh(0x7001);
  EXPECT(step(0, 0, JOURNAL - 536).number == IBZ_DONE);
  fresh(0x7001);
  ibz_set(block, IBZ_MODE, IBZ_MODE_HALTED);
  keep();
  EXPECT(step_refused(step(7, 0, 0), IBZ_IS_HALTED, 0));
}

/* Records that are not well formed, where slots below 18 hold 5, SR and mode 0, and memory is 1,024 bytes of 0 (docs/FORMAT.md 5). */
static void records(void) {
  static const struct { unsigned n; uint8_t bytes[6]; } bad[] = {
      {1, {0x00}},                               /* begins before place 0 */
      {1, {0x80}},                               /* a number without its first group */
      {3, {0x00, 0x00, 0x80}},                   /* a number that is not the shortest */
      {2, {0x15, 0x00}},                         /* 21 slots */
      {2, {0x00, 0x47}},                         /* 71 bytes */
      {6, {0x01, 0x00, 0x00, 0x00, 0x02, 0x00}}, /* slots that do not ascend */
      {4, {0x14, 0x00, 0x01, 0x00}},             /* slot 20 */
      {4, {0x12, 0x20, 0x01, 0x00}},             /* an SR that can not be */
      {4, {0x13, 0x03, 0x01, 0x00}},             /* a mode that can not be */
      {6, {0x01, 0x01, 0x00, 0x01, 0x00, 0x02}}, /* addresses that do not ascend */
      {5, {0x08, 0x80, 0x01, 0x00, 0x01}},       /* address 1,024 */
      {5, {0x00, 0x02, 0x80, 0x00, 0x01}},       /* a byte of 256 */
      {4, {0x00, 0x05, 0x01, 0x00}},             /* a slot that holds its old value */
      {4, {0x00, 0x00, 0x00, 0x01}}};            /* a byte that holds its old value */
  fresh(0);
  for (unsigned i = 0; i < 18; i++) ibz_set(block, i, 5);
  for (unsigned i = 0; i < sizeof bad / sizeof *bad; i++) {
    memcpy(journal, bad[i].bytes, bad[i].n);
    keep();
    EXPECT(undo_refused(ibz_undo(block, BLOCK, 0, 1024, memory, 1024, IBZ_NO_ROM, journal, JOURNAL, bad[i].n), IBZ_BAD_RECORD, bad[i].n));
  }
  static const uint8_t good[] = {0x03, 0x07, 0x00, 0x09, 0x01, 0x01}; /* D3 was 7, the byte at 0 was 9 */
  memcpy(journal, good, sizeof good);
  const struct ibz_undo_answer a = ibz_undo(block, BLOCK, 0, 1024, memory, 1024, IBZ_NO_ROM, journal, JOURNAL, sizeof good);
  EXPECT(a.number == 0 && a.mark == 0 && ibz_get(block, IBZ_D3) == 7 && memory[0] == 9 && ibz_get(block, IBZ_D2) == 5);
}

/* ---- reset, the reasons of a run, 01's examples */

static void resets(void) {
  fresh(0x7001);
  for (unsigned i = 0; i < sizeof block; i++) block[i] = (uint8_t)(i * 7 + 1);
  EXPECT(ibz_reset(block, BLOCK, memory, 1023, IBZ_NO_ROM).number == IBZ_BAD_MEMORY); /* the fixed state */
  for (unsigned i = 0; i < IBZ_SLOTS; i++) EXPECT(ibz_get(block, i) == (i == IBZ_MODE ? 2u : 0u));
  EXPECT(block[BLOCK] == (uint8_t)(BLOCK * 7 + 1));
  EXPECT(ibz_reset(block, BLOCK, NULL, 0, IBZ_NO_ROM).number == IBZ_BAD_MEMORY && ibz_get(block, IBZ_MODE) == 2);
  memset(block, 0xFF, BLOCK); /* it looks at no slot */
  put(0, 0x0102), put(2, 0x0304), put(4, 0xA0B0), put(6, 0xC0D0);
  keep();
  EXPECT(ibz_reset(block, BLOCK, memory, 1024, IBZ_NO_ROM).number == IBZ_DONE);
  for (unsigned i = 0; i < IBZ_SLOTS; i++)
    EXPECT(ibz_get(block, i) == (i == IBZ_SSP ? 0x01020304u : i == IBZ_PC ? 0xA0B0C0D0u : i == IBZ_SR ? 0x2700u : 0u));
  EXPECT(block[64] == 1 && block[65] == 2 && block[66] == 3 && block[67] == 4); /* high byte first */
  EXPECT(memcmp(memory, old_memory, MEMORY) == 0 && memcmp(journal, old_journal, JOURNAL) == 0);
}

/* Each step of these is a branch: 10 clocks. */
static int ran(struct ibz_run_answer a, uint32_t reason, uint32_t steps, size_t mark) {
  return a.number == 0 && a.reason == reason && a.steps == steps && a.mark == mark && a.clocks == 10 * steps && a.moved == 0
         && a.dropped == 0;
}

static struct ibz_run_answer run(uint32_t budget, uint32_t stop, size_t length, size_t mark) {
  return ibz_run_keeping(block, BLOCK, 0, MEMORY, memory, MEMORY, IBZ_NO_ROM, budget, stop, journal, length, mark);
}

static void reasons(void) {
  fresh(0x60FE); /* a branch to itself: each record is 00 00 */
  EXPECT(ran(run(3, 0xFFFFFFFFu, JOURNAL, 0), IBZ_REASON_BUDGET, 3, 6));
  EXPECT(ran(run(1000000, 0xFFFFFFFFu, JOURNAL, 6), IBZ_REASON_JOURNAL, 1778, 3562));
  EXPECT(ran(run(5, 0x200, JOURNAL, 0), IBZ_REASON_ADDRESS, 0, 0));
  EXPECT(ran(run(5, 0x1000200, JOURNAL, 0), IBZ_REASON_BUDGET, 5, 10)); /* all 32 bits */
  EXPECT(ran(run(5, 0x200, 535, 0), IBZ_REASON_JOURNAL, 0, 0));         /* asked before the address */
  ibz_set(block, IBZ_MODE, IBZ_MODE_STOPPED);
  EXPECT(ran(run(5, 0x200, 0, 0), IBZ_REASON_STOPPED, 0, 0));
  ibz_set(block, IBZ_MODE, IBZ_MODE_HALTED);
  EXPECT(ran(run(5, 0x200, 0, 0), IBZ_REASON_HALTED, 0, 0));
  EXPECT(ran(run(0, 0x200, 0, 0), IBZ_REASON_BUDGET, 0, 0)); /* budget 0 on a halted machine */
}

static int recorded(const char *bytes, size_t n) { return memcmp(journal, bytes, n) == 0 && journal[n] == 0xEE; }

static void examples(void) {
  fresh(0x7001); /* MOVEQ #1,D0 */
  struct ibz_step_answer a = step(0, 0, 0);
  EXPECT(a.number == 0 && a.event == IBZ_EVENT_NONE && a.mark == 7 && recorded("\x00\x00\x11\x04\x80\x02\x00", 7));
  EXPECT(ibz_get(block, IBZ_D0) == 1 && ibz_get(block, IBZ_PC) == 0x202 && a.clocks == 4);
  fresh(0x60FE); /* BRA to itself */
  a = step(0, 0, 0);
  EXPECT(a.number == 0 && a.mark == 2 && recorded("\x00\x00", 2) && memcmp(block, old_block, BLOCK) == 0 && a.clocks == 10);
  fresh(0x1080); /* MOVE.B D0,(A0) */
  ibz_set(block, IBZ_D0, 0xFF), ibz_set(block, IBZ_A0, 0x300);
  a = step(0, 0, 0);
  EXPECT(a.mark == 10 && recorded("\x11\x04\x80\x12\x00\x06\x80\x00\x02\x01", 10));
  EXPECT(memory[0x300] == 0xFF && ibz_get(block, IBZ_SR) == 8 && a.clocks == 8);
  fresh(0xD001); /* ADD.B D1,D0: $7F + $01 is $80, N and V, no C */
  ibz_set(block, IBZ_D0, 0x7F), ibz_set(block, IBZ_D1, 1);
  EXPECT(step(0, 0, 0).number == 0 && ibz_get(block, IBZ_D0) == 0x80 && ibz_get(block, IBZ_SR) == 0x0A);
  fresh(0x83C0); /* DIVS D0,D1: -7 by 2 */
  ibz_set(block, IBZ_D0, 2), ibz_set(block, IBZ_D1, 0xFFFFFFF9u);
  a = step(0, 0, 0);
  EXPECT(a.number == 0 && a.clocks == 158 && ibz_get(block, IBZ_D1) == 0xFFFFFFFDu);
  fresh(0xC3C0); /* MULS D0,D1: $8000 by $8000 */
  ibz_set(block, IBZ_D0, 0x8000), ibz_set(block, IBZ_D1, 0x8000);
  EXPECT(step(0, 0, 0).number == 0 && ibz_get(block, IBZ_D1) == 0x40000000u);
  /* ABCD and SBCD D0,D1, NBCD D1: D1 and D0 before, D1 and SR after. N is bit 7 of the byte, whatever it was; V keeps its value */
  static const struct { unsigned word; uint32_t a, b, before, is, after; } decimal[] = {
      {0xC300, 0x99, 0x01, 0x00, 0x00, 0x11}, {0x8300, 0x00, 0x01, 0x00, 0x99, 0x19}, {0xC300, 0x45, 0x38, 0x00, 0x83, 0x08},
      {0xC300, 0x41, 0x38, 0x08, 0x79, 0x00}, {0x8300, 0x80, 0x01, 0x0A, 0x79, 0x02}, {0xC300, 0xFF, 0xFF, 0x00, 0x64, 0x11},
      {0x4801, 0x20, 0x00, 0x02, 0x80, 0x1B}, {0x4801, 0x80, 0x00, 0x08, 0x20, 0x11}, {0x4801, 0x00, 0x00, 0x0C, 0x00, 0x04}};
  for (unsigned i = 0; i < sizeof decimal / sizeof *decimal; i++) {
    fresh(decimal[i].word);
    ibz_set(block, IBZ_D1, decimal[i].a), ibz_set(block, IBZ_D0, decimal[i].b), ibz_set(block, IBZ_SR, decimal[i].before);
    EXPECT(step(0, 0, 0).number == 0 && ibz_get(block, IBZ_D1) == decimal[i].is && ibz_get(block, IBZ_SR) == decimal[i].after);
  }
  fresh(0x4AFC); /* ILLEGAL with an odd SSP: halts, and nothing else changes */
  ibz_set(block, IBZ_SSP, 0x301);
  a = step(0, 0, 0);
  EXPECT(a.number == 0 && a.event == IBZ_EVENT_HALT && a.mark == 4 && recorded("\x13\x00\x01\x00", 4) && ibz_get(block, IBZ_MODE) == 2);
  EXPECT(a.clocks == 0);
  fresh(0x46FC); /* MOVE to SR in user state: vector 8, its own address is saved */
  ibz_set(block, IBZ_USP, 0x2000), ibz_set(block, IBZ_SSP, 0x1000);
  put(0x22, 0x0400);
  EXPECT(ibz_get_a7(block) == 0x2000);
  a = step(0, 0, 0);
  EXPECT(a.number == 0 && a.event == 8 + 1 && ibz_get(block, IBZ_PC) == 0x400 && ibz_get(block, IBZ_SSP) == 0xFFA && a.clocks == 34);
  EXPECT(memory[0xFFE] == 2 && memory[0xFFF] == 0 && ibz_get_a7(block) == 0xFFA && ibz_get(block, IBZ_SR) == 0x2000);
  fresh(0x7001); /* interrupts at level 7; every bit of the vector's byte counts */
  ibz_set(block, IBZ_SSP, 0x1000);
  put(64 * 4 + 2, 0x0500), put(255 * 4 + 2, 0x0600);
  a = step(7, 64, 0);
  EXPECT(a.number == 0 && a.event == 64 + 1 && ibz_get(block, IBZ_PC) == 0x500 && ibz_get(block, IBZ_SR) == 0x2700);
  a = step(7, 255, a.mark);
  EXPECT(a.number == 0 && a.event == 255 + 1 && ibz_get(block, IBZ_PC) == 0x600 && a.clocks == 44);
  a = step(0, 255, a.mark); /* at level 0 the vector is ignored: ORI.B #0,D0 */
  EXPECT(a.number == 0 && a.event == IBZ_EVENT_NONE && ibz_get(block, IBZ_PC) == 0x604 && a.clocks == 8);
}

/* ---- the way back, on the same block and on others */

/* Eight steps of a small program: it writes memory, calls, traps and returns. */
static size_t program(uint8_t *b, uint8_t *m, uint8_t *j) {
  static const uint8_t image[] = {0, 0, 0x10, 0, 0, 0, 4, 0};
  static const uint8_t code[] = {0x70, 0x2A, 0x31, 0xC0, 0x08, 0x00, 0x61, 0x04, 0x4E, 0x41, 0x60, 0xFE, /* from 0x400 on */
                                 0x42, 0x78, 0x08, 0x00, 0x4E, 0x75};                                     /* the subroutine */
  memset(m, 0, MEMORY);
  memcpy(m, image, sizeof image);
  memcpy(m + 0x400, code, sizeof code);
  m[33 * 4 + 2] = 5, m[0x500] = 0x4E, m[0x501] = 0x73; /* TRAP #1's handler returns */
  ibz_reset(b, BLOCK, m, MEMORY, IBZ_NO_ROM);
  const struct ibz_run_answer a = ibz_run_keeping(b, BLOCK, 0, MEMORY, m, MEMORY, IBZ_NO_ROM, 8, 0xFFFFFFFFu, j, JOURNAL, 0);
  EXPECT(a.number == 0 && a.steps == 8 && ibz_get(b, IBZ_PC) == 0x40A);
  EXPECT(a.clocks == 4 + 12 + 18 + 16 + 16 + 38 + 20 + 10); /* MOVEQ MOVE BSR CLR RTS TRAP RTE BRA */
  return a.mark;
}

static void way_back(void) {
  static uint8_t other[BLOCK + 3], other_room[MEMORY + 1], other_records[JOURNAL + 1], start[BLOCK];
  uint8_t *const other_memory = other_room + 1, *const other_journal = other_records + 1; /* of another alignment */
  size_t mark = program(block, memory, journal);
  const size_t other_mark = program(other + 1, other_memory, other_journal);
  EXPECT(other_mark == mark && memcmp(other + 1, block, BLOCK) == 0);
  EXPECT(memcmp(other_memory, memory, MEMORY) == 0 && memcmp(other_journal, journal, mark) == 0);
  /* two machines in turns: what is undone on one is not undone on the other */
  size_t marks_of[2] = {mark, other_mark};
  for (unsigned i = 0; i < 16; i++) {
    uint8_t *b = i % 2 ? other + 1 : block, *m = i % 2 ? other_memory : memory;
    const struct ibz_undo_answer a = ibz_undo(b, BLOCK, 0, MEMORY, m, MEMORY, IBZ_NO_ROM, i % 2 ? other_journal : journal, JOURNAL, marks_of[i % 2]);
    EXPECT(a.number == 0 && a.mark < marks_of[i % 2]);
    marks_of[i % 2] = a.mark;
    EXPECT(i % 2 == 0 || memcmp(other + 1, block, BLOCK) == 0);
  }
  ibz_reset(start, BLOCK, memory, MEMORY, IBZ_NO_ROM);
  EXPECT(marks_of[0] == 0 && marks_of[1] == 0 && memcmp(start, block, BLOCK) == 0 && memcmp(start, other + 1, BLOCK) == 0);
  EXPECT(memcmp(memory, other_memory, MEMORY) == 0 && memory[0x800] == 0 && memory[0xFFF] == 0);
  /* the state is what the block holds, wherever it lies: each undo on another copy of it, at other alignments */
  mark = program(block, memory, journal);
  memcpy(other, block, BLOCK);
  for (unsigned i = 0; i < 8; i++) {
    uint8_t *now = other + i % 4, *next = other + (i + 1) % 4;
    const struct ibz_undo_answer a = ibz_undo(now, BLOCK, 0, MEMORY, memory, MEMORY, IBZ_NO_ROM, journal, JOURNAL, mark);
    EXPECT(a.number == 0);
    mark = a.mark;
    uint8_t copy[BLOCK];
    memcpy(copy, now, BLOCK);
    memcpy(next, copy, BLOCK);
  }
  EXPECT(mark == 0 && memcmp(other, start, BLOCK) == 0);
  /* a record on a block that holds its old values already: refused, and nothing is altered */
  mark = undo(program(block, memory, journal)).mark; /* the branch to itself changed nothing */
  const struct ibz_undo_answer once = undo(mark);
  EXPECT(once.number == 0 && once.mark < mark && ibz_get(block, IBZ_PC) == 0x500);
  keep();
  EXPECT(undo_refused(undo(mark), IBZ_BAD_RECORD, mark));
  EXPECT(undo(once.mark).number == 0 && ibz_get(block, IBZ_PC) == 0x408);
}

/* ---- what the header declares */

static void layout(void) {
  EXPECT(sizeof(struct ibz_reset_answer) == 12 && sizeof(struct ibz_step_answer) == 40);
  EXPECT(sizeof(struct ibz_run_answer) == 40 && sizeof(struct ibz_undo_answer) == 16);
  EXPECT(sizeof(struct ibz_try_answer) == 24 && sizeof(struct ibz_back_answer) == 24);
  EXPECT(sizeof(struct ibz_form_answer) == 16 && offsetof(struct ibz_form_answer, length) == 8);
  EXPECT(sizeof(struct ibz_slice) == 16 && offsetof(struct ibz_slice, length) == 8);
  EXPECT(offsetof(struct ibz_reset_answer, lo) == 4 && offsetof(struct ibz_reset_answer, hi) == 8);
  EXPECT(offsetof(struct ibz_try_answer, number) == 4 && offsetof(struct ibz_try_answer, vector) == 8);
  EXPECT(offsetof(struct ibz_try_answer, steps) == 12 && offsetof(struct ibz_try_answer, mark) == 16);
  EXPECT(offsetof(struct ibz_back_answer, undone) == 4 && offsetof(struct ibz_back_answer, mark) == 8);
  EXPECT(offsetof(struct ibz_back_answer, lo) == 16 && offsetof(struct ibz_back_answer, hi) == 20);
  EXPECT(offsetof(struct ibz_step_answer, event) == 4 && offsetof(struct ibz_run_answer, reason) == 4);
  EXPECT(offsetof(struct ibz_step_answer, mark) == 8 && offsetof(struct ibz_run_answer, mark) == 8);
  EXPECT(offsetof(struct ibz_undo_answer, mark) == 8 && offsetof(struct ibz_run_answer, steps) == 16);
  EXPECT(offsetof(struct ibz_step_answer, clocks) == 16 && offsetof(struct ibz_run_answer, clocks) == 20 && IBZ_VERSION == 6);
  EXPECT(offsetof(struct ibz_step_answer, moved) == 24 && offsetof(struct ibz_run_answer, moved) == 24);
  EXPECT(offsetof(struct ibz_step_answer, dropped) == 32 && offsetof(struct ibz_run_answer, dropped) == 32);
  for (unsigned i = 0; i < IBZ_SLOTS; i++) {
    memset(block, 0x5A, sizeof block);
    ibz_set(block, i, 0x89ABCDEFu);
    EXPECT(ibz_get(block, i) == 0x89ABCDEFu && block[4 * i] == 0x89 && block[4 * i + 3] == 0xEF && block[4 * i + 4] == 0x5A);
    EXPECT(i == 0 || block[4 * i - 1] == 0x5A);
  }
  for (uint32_t n = 0; n <= 13; n++) /* a text for each, and no two alike */
    for (uint32_t k = 0; k <= 14; k++) EXPECT((strcmp(ibz_number_text(n), ibz_number_text(k)) == 0) == (n == k));
  for (uint32_t n = 0; n <= 6; n++)
    for (uint32_t k = 0; k <= 7; k++) EXPECT((strcmp(ibz_reason_text(n), ibz_reason_text(k)) == 0) == (n == k));
  for (uint32_t n = 1; n <= 5; n++)
    for (uint32_t k = 0; k <= 6; k++) EXPECT((strcmp(ibz_end_text(n), ibz_end_text(k)) == 0) == (n == k));
}

int main(void) {
  layout();
  orders();
  blocks();
  memories();
  states();
  requests();
  marks();
  records();
  resets();
  reasons();
  examples();
  way_back();
  return verdict("calls");
}
