/* part.c - what a ROM brings to the calls, by hand: the refusals 12 and 10 at their edges, by every call (calls.c has their order among the
 * others), and the part of memory or of the ROM that holds an address and a length. All of it twice, on buffers that end where pages that
 * can not be touched begin, and on such that begin where they end; and the ROM's pages can not be written. */
#include "tests.h"

enum { MEMORY = 4096, JOURNAL = 2048, BLOCK = IBZ_BLOCK_LENGTH, SUPERVISOR = 0x2000, START = 0xF00000, ROM = 64, END = START + ROM };

static uint8_t *block, *memory, *journal, *rom, old_block[BLOCK], old_journal[JOURNAL];
static int at_end;

#define FAR UINT64_MAX

/* ---- refusals: 12, and 10 by the new end */

/* Whether every call gives this number, of these lengths and this window; alters nothing where it is not 0, and is done where it is. */
static int numbered(uint8_t *m, size_t length, const uint8_t *r, size_t rom_length, uint32_t from, uint32_t to, uint32_t n) {
  struct ibz_slice p = {r, 1};
  int good = 1;
  for (unsigned call = 0; call < 7; call++) {
    memset(block, 0, BLOCK), memset(journal, 0, 8), ibz_set(block, IBZ_PC, 0x200);
    if (call != 5) ibz_set(block, IBZ_SR, SUPERVISOR); /* so that the window does not matter; a try starts as user */
    m[0x200] = 0x60, m[0x201] = 0xFE; /* BRA to itself: the record is 00 00 */
    memcpy(old_block, block, BLOCK), memcpy(old_journal, journal, JOURNAL);
    uint32_t is = n;
    size_t mark = n == 0 ? 10 : 8;
    if (call == 0) {
      const struct ibz_step_answer a = ibz_step(block, BLOCK, from, to, m, length, r, rom_length, 0, 0, journal, JOURNAL, 8);
      is = a.number, mark = a.mark;
    } else if (call == 1) {
      const struct ibz_step_answer a = ibz_step_keeping(block, BLOCK, from, to, m, length, r, rom_length, 0, 0, journal, JOURNAL, 8);
      is = a.number, mark = a.mark;
    } else if (call < 4) {
      const struct ibz_run_answer a =
          call == 2 ? ibz_run(block, BLOCK, from, to, m, length, r, rom_length, 1, 1, journal, JOURNAL, 8)
                    : ibz_run_keeping(block, BLOCK, from, to, m, length, r, rom_length, 1, 1, journal, JOURNAL, 8);
      is = a.number, mark = a.mark;
      good = good && a.reason == (n == 0 ? 1u : 0u) && a.steps == (n == 0 ? 1u : 0u);
    } else if (call == 4) {
      const struct ibz_undo_answer a = ibz_undo(block, BLOCK, from, to, m, length, r, rom_length, journal, JOURNAL, 8);
      is = a.number, mark = n == 0 && a.mark == 6 ? 10 : a.mark;
    } else if (call == 5) {
      const struct ibz_try_answer a = ibz_try(block, BLOCK, from, to, m, length, r, rom_length, 0, journal, JOURNAL, 8);
      is = a.number, mark = n == 0 && a.mark == 8 ? 10 : a.mark;
      good = good && a.end == (n == 0 ? IBZ_END_SPENT : IBZ_END_REFUSED);
    } else {
      const struct ibz_back_answer a = ibz_take_back(block, BLOCK, from, to, m, length, r, rom_length, journal, JOURNAL, 8, 4, 5, 6);
      is = a.number, mark = n == 0 && a.mark == 0 ? 10 : a.mark;
      good = good && a.undone == (n == 0 ? 4u : 0u) && a.lo == (n == 0 ? 5 : from) && a.hi == (n == 0 ? 6 : to);
    }
    good = good && is == n && mark == (n == 0 ? 10u : 8u);
    good = good && (n == 0 || (memcmp(block, old_block, BLOCK) == 0 && memcmp(journal, old_journal, JOURNAL) == 0));
  }
  if (n == 10) return good; /* a reset and a part have no window */
  memset(block, 0xA5, BLOCK), memset(m, 0, 8), m[2] = 8, m[6] = 4;
  const struct ibz_reset_answer a = ibz_reset(block, BLOCK, m, length, r, rom_length);
  good = good && a.number == n && a.lo == 0 && a.hi == (n == 0 ? length : 0);
  for (unsigned s = 0; s < IBZ_SLOTS; s++) {
    const uint32_t done = s == IBZ_SSP ? 0x800u : s == IBZ_PC ? 0x400u : s == IBZ_SR ? 0x2700u : 0u;
    good = good && ibz_get(block, s) == (n == 0 ? done : s == IBZ_MODE ? 2u : 0u);
  }
  return good && ibz_part(m, length, r, rom_length, 4, 3, &p) == n && p.bytes == (n == 0 ? m + 4 : m) && p.length == (n == 0 ? 3u : 0u);
}

static void refusals(void) {
  static const struct { size_t memory, rom; uint32_t number; } lengths[] = {
      {MEMORY, 0, 0},           {MEMORY, 1, 12},          {MEMORY, 2, 0},           {MEMORY, 3, 12},           {MEMORY, 1048574, 0},
      {MEMORY, 1048575, 12},    {MEMORY, 1048576, 0},     {MEMORY, 1048577, 12},    {MEMORY, 1048578, 12},     {15728638, 2, 0},
      {15728640, 0, 0},         {15728640, 2, 0},         {15728640, 1048576, 0},   {15728640, 1, 12},         {15728642, 0, 0},
      {15728642, 2, 12},        {15728642, 1048576, 12},  {16777216, 0, 0},         {16777216, 2, 12},         {16777216, 3, 12},
      {16777218, 0, 1},         {16777218, 2, 1},         {1023, 1, 1},             {1022, 2, 1},              {15728641, 2, 1}}; /* 1 before 12 */
  static const struct { size_t rom; uint32_t lo, hi, number; } ends[] = {
      {0, 0, MEMORY, 0},          {0, 0, MEMORY + 1, 10},     {0, 0, START, 10},             {0, START, START, 10},        {0, 0, END, 10},
      {2, 0, MEMORY, 0},          {2, 0, MEMORY + 1, 0},      {2, 0, START - 1, 0},          {2, 0, START, 0},             {2, 0, START + 1, 0},
      {2, 0, START + 2, 0},       {2, START + 2, START + 2, 0}, {2, 0, START + 3, 10},       {2, START + 3, START + 3, 10}, {2, 1, 0, 10},
      {2, START + 2, START + 1, 10}, {64, 0, END, 0},         {64, END, END, 0},             {64, 0, END + 1, 10},         {64, 0, 0x1000000, 10},
      {64, 0, 0x1000000 + END, 10}, {64, 0, 0xFFFFFFFFu, 10}, {64, 0xFFFFFFFFu, 0, 10},      {1048576, 0, 0x1000000, 0},
      {1048576, 0, 0x1000001, 10}, {1048576, 0x1000000, 0x1000000, 0}, {1048576, 0x1000001, 0x1000001, 10}};
  uint8_t *const m = guarded(16777218, at_end), *const r = guarded(1048578, at_end);
  may_write(r, 1048578, at_end, 0);
  for (unsigned i = 0; i < sizeof lengths / sizeof *lengths; i++) {
    uint8_t *const lent = at_end ? m + (16777218 - lengths[i].memory) : m, *const lent_rom = at_end ? r + (1048578 - lengths[i].rom) : r;
    const int good = numbered(lent, lengths[i].memory, lent_rom, lengths[i].rom, 0, 0x202, lengths[i].number);
    if (!good) printf("lengths %zu and %zu\n", lengths[i].memory, lengths[i].rom);
    EXPECT(good);
  }
  for (unsigned i = 0; i < sizeof ends / sizeof *ends; i++) {
    const int good = numbered(memory, MEMORY, ends[i].rom == 0 ? NULL : r, ends[i].rom, ends[i].lo, ends[i].hi, ends[i].number);
    if (!good) printf("a ROM of %zu, a window from %X to %X\n", ends[i].rom, (unsigned)ends[i].lo, (unsigned)ends[i].hi);
    EXPECT(good);
  }
}

/* ---- the part */

/* Asks for a part, and says whether it is the very one: so many bytes from there. Memory and ROM stay. */
static int is_part(const uint8_t *m, size_t length, const uint8_t *r, size_t rom_length, uint64_t address, uint64_t many, uint32_t number,
                   const uint8_t *there) {
  struct ibz_slice p = {memory + 1, 1};
  const uint32_t n = ibz_part(m, length, r, rom_length, address, many, &p);
  const int good = n == number && p.bytes == there && p.length == (number == 0 ? many : 0);
  if (!good) printf("the part of %llX bytes at %llX\n", (unsigned long long)many, (unsigned long long)address);
  return good;
}

/* The same of an empty part of what is NULL: its address means nothing, and only is not what was there before. */
static int is_of_null(const uint8_t *m, size_t length, uint64_t address, uint64_t many, uint32_t number) {
  struct ibz_slice p = {memory + 1, 1};
  const uint32_t n = ibz_part(m, length, IBZ_NO_ROM, address, many, &p);
  return n == number && p.length == 0 && p.bytes != memory + 1;
}

static void parts(void) {
  enum { NEITHER = 0, OF_MEMORY, OF_ROM };
  static const struct { uint64_t address, many; int where; } cases[] = {
      {0, 0, OF_MEMORY},           {0, 1, OF_MEMORY},              {0, MEMORY, OF_MEMORY},       {0, MEMORY + 1, NEITHER},
      {1, MEMORY - 1, OF_MEMORY},  {1, MEMORY, NEITHER},           {MEMORY - 1, 1, OF_MEMORY},   {MEMORY - 1, 2, NEITHER},
      {MEMORY, 0, OF_MEMORY},      {MEMORY, 1, NEITHER},           {MEMORY + 1, 0, NEITHER},     {START - 1, 0, NEITHER},
      {START - 1, 1, NEITHER},     {START - 1, 2, NEITHER},        {START, 0, OF_ROM},           {START, 1, OF_ROM},
      {START, ROM, OF_ROM},        {START, ROM + 1, NEITHER},      {START + 1, ROM - 1, OF_ROM}, {START + 1, ROM, NEITHER},
      {END - 1, 1, OF_ROM},        {END - 1, 2, NEITHER},          {END, 0, OF_ROM},             {END, 1, NEITHER},
      {END + 1, 0, NEITHER},       {0x1000000, 0, NEITHER},        {0x1000000, 1, NEITHER},      {0x1000000 + START, 0, NEITHER},
      {0x1000000 + START, 1, NEITHER}, {(uint64_t)1 << 32, 1, NEITHER}, {((uint64_t)1 << 32) + START, 1, NEITHER}, {(uint64_t)1 << 63, 0, NEITHER},
      {0, (uint64_t)1 << 32, NEITHER}, {START, ((uint64_t)1 << 32) + 1, NEITHER}, {FAR, 0, NEITHER}, {FAR, 1, NEITHER},
      {FAR, 2, NEITHER},           {FAR, FAR, NEITHER},            {0, FAR, NEITHER},            {1, FAR, NEITHER},
      {2, FAR, NEITHER},           {MEMORY, FAR - MEMORY + 1, NEITHER}, {START, FAR, NEITHER},   {START, FAR - START + 1, NEITHER},
      {END, FAR - ROM + 1, NEITHER}, {START + 1, FAR, NEITHER},    {FAR - ROM + 1, ROM, NEITHER}, {(uint64_t)1 << 63, (uint64_t)1 << 63, NEITHER}};
  for (unsigned i = 0; i < sizeof cases / sizeof *cases; i++) {
    const int where = cases[i].where;
    const uint8_t *const there = where == OF_MEMORY ? memory + cases[i].address : where == OF_ROM ? rom + (cases[i].address - START) : memory;
    EXPECT(is_part(memory, MEMORY, rom, ROM, cases[i].address, cases[i].many, where == NEITHER ? 13 : 0, there));
  }
  /* of no ROM: an empty one at its start, which is its end */
  EXPECT(is_part(memory, MEMORY, rom, 0, START, 0, 0, rom) && is_of_null(memory, MEMORY, START, 0, 0));
  EXPECT(is_part(memory, MEMORY, rom, 0, START, 1, 13, memory) && is_part(memory, MEMORY, rom, 0, START + 1, 0, 13, memory));
  /* memory is tried first */
  uint8_t *const m = guarded(16777216, at_end);
  EXPECT(is_part(m, START, rom, ROM, START, 0, 0, m + START) && is_part(m, START, rom, ROM, START, 1, 0, rom));
  EXPECT(is_part(m, START, rom, ROM, START - 2, 2, 0, m + START - 2) && is_part(m, START, rom, ROM, START - 1, 2, 13, m));
  EXPECT(is_part(m, 16777216, rom, 0, START, 16, 0, m + START) && is_part(m, 16777216, rom, 0, START, 0, 0, m + START));
  EXPECT(is_part(m, 16777216, rom, 0, 16777216, 0, 0, m + 16777216) && is_part(m, 16777216, rom, 0, 16777216, 1, 13, m));
  EXPECT(is_part(m, 16777216, rom, 0, 16777217, 0, 13, m) && is_part(m, START + 16, rom, 0, START + 8, 8, 0, m + START + 8));
  /* 1, then 12, then 13 */
  EXPECT(is_part(memory, 1023, rom, ROM, 0, 1, 1, memory) && is_part(memory, 1023, rom, 1, FAR, FAR, 1, memory));
  EXPECT(is_part(memory, MEMORY, rom, 1, 0, 1, 12, memory) && is_part(memory, MEMORY, rom, 63, FAR, FAR, 12, memory));
  EXPECT(is_part(m, START + 2, rom, ROM, 0, 1, 12, m) && is_of_null(NULL, 0, 0, 0, 1));
  /* it is the very bytes: what is written later stands in it */
  struct ibz_slice p = {NULL, 0};
  EXPECT(ibz_part(memory, MEMORY, rom, ROM, 0x700, 2, &p) == 0 && p.length == 2);
  memory[0x701] = 0x77;
  EXPECT(p.bytes[1] == 0x77 && ibz_part(memory, MEMORY, rom, ROM, END - 1, 1, &p) == 0 && p.bytes == rom + ROM - 1);
}

int main(void) {
  for (at_end = 0; at_end < 2; at_end++) {
    block = guarded(BLOCK, at_end), memory = guarded(MEMORY, at_end), journal = guarded(JOURNAL, at_end), rom = guarded(ROM, at_end);
    may_write(rom, ROM, at_end, 0);
    refusals();
    parts();
  }
  return verdict("part");
}
