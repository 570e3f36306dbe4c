/* garbage.c - a million calls with anything in them, every buffer between pages that can not be touched: one byte read or written
 * outside ends the test. Whatever was asked, each answer is held to this:
 *   a number that the call can not give is not given; it is 9 exactly if the block is not 80 bytes long; where it is neither 9 nor 1, it is 12
 *   exactly if the ROM is none; and where it is none of these and not 2, it is 10 exactly if the window is no window of this memory and ROM;
 *   a refused call alters nothing, but a refused reset, which sets the fixed state; and no call can alter the ROM, whose pages let nobody;
 *   a step or a run that drops no record alters the journal between the marks only, and leaves the mark within it; an undo and a reset do
 *   not alter it; a step that drops some has moved what it says it moved, and alters nothing from its mark on;
 *   a step that was done, and every step of a run that was done and dropped none, is taken back by an undo, byte for byte;
 *   done again, by steps alone, they lead to the same, and take as many clocks, and move and drop as much: the step's own, or the run's;
 *   a try is the same as its steps, and is taken back, byte for byte; before a step that takes an exception or halts, T, S, mask, SSP and
 *   every byte outside the window stay, and other bytes there, of memory and of the ROM, and another SSP, lead to the same records and clocks;
 *   taking back is the same as its undos;
 *   a part is the very one of memory, else of the ROM, that holds it, and else empty, at memory's start;
 *   a conversion alters nothing but its target, of that only as much as it says, and nothing if it is refused; what it made, converted back,
 *   is the journal that it was given, and finds no room in a byte less.
 * Arguments: how many calls, and a seed. */
#include "tests.h"

enum { LENGTHS = 12, LARGEST = 4096, BLOCKS = 7, BLOCK_MOST = 160, ROMS = 9 };
static const size_t lengths[LENGTHS] = {0, 1, 535, 536, 537, 1022, 1023, 1024, 1025, 1026, 2048, LARGEST};
static const size_t block_lengths[BLOCKS] = {80, 79, 81, 0, 1, 92, BLOCK_MOST};
static const size_t rom_lengths[ROMS] = {0, 2, 64, 1024, LARGEST, IBZ_ROM_MOST, 1, 63, IBZ_ROM_MOST + 2}; /* the last three are none */

/* Each at the start of its pages, and at their end. */
static uint8_t *memories[2][LENGTHS], *journals[2][LENGTHS], *targets[2][LENGTHS], *blocks[2][BLOCKS], *roms[2][ROMS];

/* What is lent, and what it was before the call. */
static uint8_t *block, *memory, *journal, *rom;
static size_t block_length, memory_length, journal_length, rom_length, mark, begun; /* from `begun` on stand records of this box's steps */
static uint32_t lo, hi;
static uint8_t old_block[BLOCK_MOST], old_memory[LARGEST], old_journal[LARGEST];

/* Instructions that write, trap, halt, return and jump, so that steps are long and varied. */
static const uint16_t words[] = {0x48E7, 0xFFFE, 0x4CDF, 0x7FFF, 0x4E40, 0x4AFC, 0x4E72, 0x2700, 0x4E73, 0x46FC, 0x2000, 0x23C0,
                                 0x0000, 0x0200, 0x60FE, 0x7001, 0x4E75, 0x4EB8, 0x0400, 0x8000, 0x51C8, 0xFFFE, 0xC100, 0xD0FC};

static void fill(uint8_t *p, size_t n) {
  const unsigned how = below(4);
  for (size_t i = 0; i < n; i++) p[i] = (uint8_t)(how == 0 ? 0 : how == 1 ? any() : below(8) == 0 ? any() : 0);
  if (how == 3)
    for (size_t i = 0; i + 1 < n; i += 2) {
      const uint16_t w = words[below(sizeof words / sizeof *words)];
      p[i] = (uint8_t)(w >> 8), p[i + 1] = (uint8_t)w;
    }
}

static void fill_block(uint8_t *p, size_t n) {
  for (size_t i = 0; i < n; i++) p[i] = (uint8_t)any();
  if (below(16) == 0 || n < IBZ_BLOCK_LENGTH) return;
  for (unsigned s = 0; s < 18; s++) { /* about memory's places, or about the ROM's */
    const uint32_t end = below(2) ? (uint32_t)rom_length : 0;
    if (below(4) != 0) ibz_set(p, s, below(2) ? below(2048) * 2 : any());
    if (rom_length != 0 && below(4) == 0) ibz_set(p, s, IBZ_ROM_START - 8 + end + below(16) + below(rom_length < 64 ? 2 : 64) * below(2));
  }
  if (rom_length != 0 && below(2)) ibz_set(p, IBZ_PC, IBZ_ROM_START + below((uint32_t)rom_length / 2 + 1) * 2);
  ibz_set(p, IBZ_SR, below(16) ? any() & (below(2) ? 0xA71Fu : 0x071Fu) : any() & 0xFFFFu);
  ibz_set(p, IBZ_MODE, below(16) ? 0 : below(4));
}

static size_t a_mark(size_t n) {
  switch (below(8)) {
  case 0: return SIZE_MAX - below(3);
  case 1: return n;
  case 2: return n + 1 + below(600);
  case 3: return n > 536 ? n - 536 : 0;
  default: return below((uint32_t)n + 1);
  }
}

static int bad_rom(void) { return rom_length % 2 != 0 || rom_length > IBZ_ROM_MOST; }

/* How far a window may reach. */
static uint32_t window_end(void) { return (uint32_t)(rom_length == 0 ? memory_length : IBZ_ROM_START + rom_length); }

/* All of memory, any two numbers, a part of memory, a part about PC, or one byte too many; and with the ROM, all of it or a part. */
static void a_window(void) {
  const uint32_t n = (uint32_t)memory_length, a = below(n + 1), b = below(n + 1), end = window_end();
  const uint32_t pc = block_length < IBZ_BLOCK_LENGTH ? 0 : ibz_get(block, IBZ_PC) & 0xFFFFFFu;
  lo = 0, hi = n;
  switch (below(12)) {
  case 0: lo = any(), hi = any(); break;
  case 1: lo = a < b ? a : b, hi = a < b ? b : a; break;
  case 2:
  case 3:
    hi = pc + 300 < end ? pc + below(300) : end, lo = pc < 300 ? 0 : pc - below(300);
    if (lo > hi) lo = hi;
    break;
  case 4: lo = below(4), hi = end + below(2); break;
  case 5:
  case 6:
  case 7: lo = below(2) ? a : 0, hi = end; break;
  case 8: lo = end - below((uint32_t)rom_length + 1), hi = end; break;
  default: break;
  }
}

static int bad_window(void) { return lo > hi || hi > window_end(); }

static void lend(void) {
  const unsigned end = below(2), b = below(16) ? 0 : below(BLOCKS), m = below(8) ? 7 + 2 * below(2) + 2 * below(2) : below(LENGTHS);
  const unsigned j = below(8) ? 10 + below(2) : below(LENGTHS);
  const unsigned r = below(2) ? 0 : below(8) ? 1 + below(5) : below(ROMS);
  block = blocks[end][b], memory = memories[end][m], journal = journals[end][j], rom = roms[end][r];
  block_length = block_lengths[b], memory_length = lengths[m], journal_length = lengths[j], rom_length = rom_lengths[r];
  if (rom_length <= LARGEST) may_write(rom, rom_length, (int)end, 1), fill(rom, rom_length), may_write(rom, rom_length, (int)end, 0);
  fill_block(block, block_length), fill(memory, memory_length), fill(journal, journal_length);
  mark = begun = a_mark(journal_length);
  a_window();
}

static void keep(void) {
  memcpy(old_block, block, block_length);
  memcpy(old_memory, memory, memory_length);
  memcpy(old_journal, journal, journal_length);
}

static int same_state(void) { return memcmp(block, old_block, block_length) == 0 && memcmp(memory, old_memory, memory_length) == 0; }

static int same_journal(size_t from, size_t to) { return memcmp(journal + from, old_journal + from, to - from) == 0; }

/* A step or a run, by its manner. */
static struct ibz_step_answer step_by(int keeps, uint32_t level, uint8_t vector, size_t at) {
  return keeps ? ibz_step_keeping(block, block_length, lo, hi, memory, memory_length, rom, rom_length, level, vector, journal, journal_length, at)
               : ibz_step(block, block_length, lo, hi, memory, memory_length, rom, rom_length, level, vector, journal, journal_length, at);
}

static struct ibz_run_answer run_by(int keeps, uint32_t budget, uint32_t stop, size_t at) {
  return keeps ? ibz_run_keeping(block, block_length, lo, hi, memory, memory_length, rom, rom_length, budget, stop, journal, journal_length, at)
               : ibz_run(block, block_length, lo, hi, memory, memory_length, rom, rom_length, budget, stop, journal, journal_length, at);
}

/* `steps` undos from `next` lead back to what was kept, and to the mark `from`; as many steps with the same request lead to what was
 * found, and to `next`: there is room for them. The clocks of these steps together. */
static uint64_t there_and_back(uint32_t steps, size_t from, size_t next, uint32_t level, uint8_t vector) {
  static uint8_t now_block[IBZ_BLOCK_LENGTH], now_memory[LARGEST];
  memcpy(now_block, block, sizeof now_block), memcpy(now_memory, memory, memory_length);
  size_t at = next;
  uint64_t clocks = 0;
  for (uint32_t i = 0; i < steps; i++) {
    const struct ibz_undo_answer a = ibz_undo(block, block_length, lo, hi, memory, memory_length, rom, rom_length, journal, journal_length, at);
    EXPECT(a.number == 0 && a.mark < at);
    at = a.mark;
  }
  EXPECT(at == from && same_state());
  for (uint32_t i = 0; i < steps; i++) {
    const struct ibz_step_answer a = step_by(i % 2 == 0, level, vector, at);
    EXPECT(a.number == 0 && a.mark > at && a.clocks <= IBZ_CLOCKS_MOST && a.moved == 0 && a.dropped == 0);
    at = a.mark, clocks += a.clocks;
  }
  EXPECT(at == next && memcmp(block, now_block, sizeof now_block) == 0 && memcmp(memory, now_memory, memory_length) == 0);
  return clocks;
}

/* A run that may have dropped records: the same steps one by one, from what was kept, lead to the same, its journal too. */
static void one_by_one(struct ibz_run_answer a) {
  static uint8_t now_block[IBZ_BLOCK_LENGTH], now_memory[LARGEST], now_journal[LARGEST];
  memcpy(now_block, block, sizeof now_block), memcpy(now_memory, memory, memory_length), memcpy(now_journal, journal, journal_length);
  memcpy(block, old_block, block_length), memcpy(memory, old_memory, memory_length), memcpy(journal, old_journal, journal_length);
  uint64_t clocks = 0, moved = 0, dropped = 0;
  size_t at = mark;
  for (uint32_t i = 0; i < a.steps; i++) {
    const struct ibz_step_answer s = step_by(0, 0, 0, at);
    EXPECT(s.number == 0);
    at = s.mark, clocks += s.clocks, moved += s.moved, dropped += s.dropped;
  }
  EXPECT(a.mark == at && a.clocks == clocks && a.moved == moved && a.dropped == dropped);
  EXPECT(memcmp(block, now_block, sizeof now_block) == 0 && memcmp(memory, now_memory, memory_length) == 0);
  EXPECT(memcmp(journal, now_journal, journal_length) == 0);
}

/* A for 10 to D for 13. */
static int can_give(const char *numbers, uint32_t number) { return number <= 13 && strchr(numbers, "0123456789ABCD"[number]) != NULL; }

static uint32_t one_reset(void) {
  const struct ibz_reset_answer a = ibz_reset(block, block_length, memory, memory_length, rom, rom_length);
  const uint32_t number = a.number;
  EXPECT(a.lo == 0 && a.hi == (number == 0 ? memory_length : 0));
  EXPECT(can_give("019C", number) && memcmp(memory, old_memory, memory_length) == 0 && same_journal(0, journal_length));
  if (number == 1 || number == 12)
    for (unsigned s = 0; s < IBZ_SLOTS; s++) EXPECT(ibz_get(block, s) == (s == IBZ_MODE ? 2u : 0u));
  EXPECT(number != 9 || same_state());
  lo = a.lo, hi = a.hi;
  return number;
}

static uint64_t dropped_in_all;

static uint32_t one_step(void) {
  const uint32_t level = below(4) ? 0 : below(4) ? below(8) : any();
  const uint8_t vector = (uint8_t)any();
  const int keeps = below(2) == 0;
  const struct ibz_step_answer a = step_by(keeps, level, vector, mark);
  EXPECT(can_give(keeps ? "01234569AC" : "012345689AC", a.number) && a.event <= IBZ_EVENT_HALT && (!keeps || (a.moved == 0 && a.dropped == 0)));
  if (a.number == 0) {
    const size_t from = a.dropped == 0 ? mark : a.moved;
    EXPECT(a.mark > from && a.mark - from <= IBZ_RECORD_MOST && from + IBZ_RECORD_MOST <= journal_length && from <= mark);
    EXPECT(a.dropped != 0 || (a.moved == 0 && same_journal(0, mark)));
    EXPECT(memcmp(journal, old_journal + (mark - from), from) == 0 && same_journal(a.mark, journal_length));
    EXPECT(a.clocks == there_and_back(1, from, a.mark, level, vector));
  } else {
    EXPECT(a.mark == mark && a.event == 0 && a.clocks == 0 && a.moved == 0 && a.dropped == 0);
    EXPECT(same_state() && same_journal(0, journal_length));
  }
  dropped_in_all += a.dropped;
  mark = a.mark;
  return a.number;
}

static uint32_t one_run(void) {
  const uint32_t budget = below(16) ? below(40) : any();
  const int keeps = below(2) == 0;
  const struct ibz_run_answer a = run_by(keeps, budget, below(2048), mark);
  EXPECT(can_give("012349AC", a.number) && (!keeps || (a.moved == 0 && a.dropped == 0)));
  if (a.number == 0) {
    EXPECT(a.reason >= 1 && a.reason <= (keeps ? 5u : 6u) && a.steps <= budget && a.mark <= journal_length);
    if (a.dropped == 0) {
      EXPECT(a.moved == 0 && a.mark >= mark && same_journal(0, mark) && same_journal(a.mark, journal_length));
      EXPECT(a.clocks == there_and_back(a.steps, mark, a.mark, 0, 0));
    }
    if (!keeps) one_by_one(a);
  } else {
    EXPECT(a.mark == mark && a.reason == 0 && a.steps == 0 && a.clocks == 0 && a.moved == 0 && a.dropped == 0);
    EXPECT(same_state() && same_journal(0, journal_length));
  }
  dropped_in_all += a.dropped;
  mark = a.mark;
  return a.number;
}

static uint32_t one_undo(void) {
  const struct ibz_undo_answer a = ibz_undo(block, block_length, lo, hi, memory, memory_length, rom, rom_length, journal, journal_length, mark);
  EXPECT(can_give("0124789AC", a.number) && same_journal(0, journal_length));
  EXPECT(a.number == 0 ? a.mark < mark : a.mark == mark && same_state());
  mark = a.mark;
  return a.number;
}

/* Tries by their ends; steps of them without an exception, in windows that are not all of memory; and such in the ROM. */
static unsigned long tries[6], quiet, in_rom;

/* A place of memory that a place of the window is, or memory's end. */
static size_t in_memory(uint32_t at) { return at < memory_length ? at : memory_length; }

/* Whether bytes outside the window are what they were, and T, S, mask and SSP. */
static int same_outside(void) {
  const uint32_t changed = ibz_get(block, IBZ_SR) ^ ibz_get(old_block, IBZ_SR);
  const size_t to = in_memory(hi);
  return memcmp(memory, old_memory, in_memory(lo)) == 0 && memcmp(memory + to, old_memory + to, memory_length - to) == 0
         && (changed & 0xFFE0u) == 0 && ibz_get(block, IBZ_SSP) == ibz_get(old_block, IBZ_SSP);
}

/* The steps of a try one by one, on the state that was kept, and beside each the same step on a machine with another SSP and other bytes
 * outside the window: the same up to the first that takes an exception or halts, and that one comes at the same place. */
static void both(struct ibz_try_answer a) {
  static uint8_t other_block[IBZ_BLOCK_LENGTH], other_memory[LARGEST], other_journal[LARGEST], other_rom[LARGEST];
  const int loud = a.end == IBZ_END_EXCEPTION || a.end == IBZ_END_HALTED;
  memcpy(other_block, block, sizeof other_block);
  ibz_set(other_block, IBZ_SSP, any());
  for (size_t i = 0; i < memory_length; i++) other_memory[i] = (uint8_t)(i >= lo && i < hi ? memory[i] : any());
  for (size_t i = 0; i < journal_length; i++) other_journal[i] = (uint8_t)any();
  const size_t from = in_memory(lo), inside = in_memory(hi) - from;
  const uint8_t *beside = rom_length <= LARGEST ? other_rom : rom;
  for (size_t i = 0; i < rom_length && i < LARGEST; i++)
    other_rom[i] = (uint8_t)(IBZ_ROM_START + i >= lo && IBZ_ROM_START + i < hi ? rom[i] : any());
  size_t at = mark;
  for (uint32_t i = 0; i < a.steps; i++) {
    const int there = (ibz_get(block, IBZ_PC) & 0xFFFFFFu) >= IBZ_ROM_START;
    const struct ibz_step_answer s = step_by(1, 0, 0, at);
    const struct ibz_step_answer o = ibz_step_keeping(other_block, sizeof other_block, lo, hi, other_memory, memory_length, beside, rom_length,
                                                      0, 0, other_journal, journal_length, at);
    const uint32_t event = !loud || i + 1 < a.steps ? IBZ_EVENT_NONE : a.end == IBZ_END_HALTED ? IBZ_EVENT_HALT : a.vector + 1;
    EXPECT(s.number == 0 && s.event == event && o.number == 0 && (o.event == 0) == (event == 0));
    if (event == 0) {
      quiet += inside < memory_length, in_rom += there != 0;
      EXPECT(same_outside() && s.mark == o.mark && s.clocks == o.clocks && memcmp(journal + at, other_journal + at, s.mark - at) == 0);
      EXPECT(memcmp(memory + from, other_memory + from, inside) == 0);
      for (unsigned k = 0; k < IBZ_SLOTS; k++) EXPECT(k == IBZ_SSP || ibz_get(block, k) == ibz_get(other_block, k));
    }
    at = s.mark;
  }
  EXPECT(at == a.mark);
}

static uint32_t one_try(void) {
  static uint8_t now_block[IBZ_BLOCK_LENGTH], now_memory[LARGEST];
  const uint32_t count = below(16) ? below(40) : any(), old_lo = any(), old_hi = any();
  const struct ibz_try_answer a = ibz_try(block, block_length, lo, hi, memory, memory_length, rom, rom_length, count, journal, journal_length, mark);
  EXPECT(can_give("01234569AC", a.number) && (a.end == IBZ_END_REFUSED) == (a.number != 0) && a.end >= 1 && a.end <= 5);
  EXPECT(a.vector <= (a.end == IBZ_END_EXCEPTION ? 255u : 0u) && (a.end != IBZ_END_SPENT || a.steps == count));
  EXPECT(a.steps == 0 || (a.steps <= count && count <= 1000000 && (a.number == 0 || a.number == 5)));
  if (a.steps == 0) {
    EXPECT(a.mark == mark && same_state() && same_journal(0, journal_length) && a.end != IBZ_END_EXCEPTION && a.end != IBZ_END_HALTED);
    EXPECT(a.number != 0 || (a.end == IBZ_END_SUPERVISED) == ((ibz_get(block, IBZ_SR) & 0x2000u) != 0));
  } else {
    EXPECT((ibz_get(old_block, IBZ_SR) & 0x2000u) == 0 && a.mark > mark && same_journal(0, mark) && same_journal(a.mark, journal_length));
    memcpy(now_block, block, sizeof now_block), memcpy(now_memory, memory, memory_length);
    const struct ibz_back_answer b = ibz_take_back(block, block_length, lo, hi, memory, memory_length, rom, rom_length, journal,
                                                   journal_length, a.mark, a.steps, old_lo, old_hi);
    EXPECT(b.number == 0 && b.undone == a.steps && b.mark == mark && b.lo == old_lo && b.hi == old_hi && same_state());
    both(a);
    EXPECT(memcmp(block, now_block, sizeof now_block) == 0 && memcmp(memory, now_memory, memory_length) == 0);
  }
  tries[a.end <= 5 ? a.end : 0]++;
  mark = a.mark;
  return a.number;
}

/* So many undos at once, and then one by one on what was kept. */
static uint32_t one_back(void) {
  static uint8_t now_block[BLOCK_MOST], now_memory[LARGEST];
  const uint32_t steps = below(4) ? below(6) : any(), old_lo = any(), old_hi = any();
  const struct ibz_back_answer a = ibz_take_back(block, block_length, lo, hi, memory, memory_length, rom, rom_length, journal,
                                                 journal_length, mark, steps, old_lo, old_hi);
  EXPECT(can_give("0124789AC", a.number) && same_journal(0, journal_length) && a.undone <= steps);
  EXPECT(a.number == 0 ? a.undone == steps && a.lo == old_lo && a.hi == old_hi : a.lo == lo && a.hi == hi);
  memcpy(now_block, block, block_length), memcpy(now_memory, memory, memory_length);
  memcpy(block, old_block, block_length), memcpy(memory, old_memory, memory_length);
  uint32_t number = block_length == IBZ_BLOCK_LENGTH ? 0 : 9, n = 0;
  for (; n < steps && number == 0; n += number == 0) {
    const struct ibz_undo_answer u = ibz_undo(block, block_length, lo, hi, memory, memory_length, rom, rom_length, journal, journal_length, mark);
    number = u.number, mark = u.mark;
  }
  EXPECT(a.number == number && a.undone == n && a.mark == mark);
  EXPECT(memcmp(block, now_block, block_length) == 0 && memcmp(memory, now_memory, memory_length) == 0);
  return number;
}

static unsigned long found_in[2]; /* parts of some bytes, of memory and of the ROM */

static int holds_it(uint64_t n, uint64_t place, uint64_t many) { return place <= n && many <= n - place; }

static uint32_t one_part(void) {
  const uint64_t ends[] = {0, memory_length, IBZ_ROM_START, IBZ_ROM_START + rom_length, any(), (uint64_t)any() << 32, UINT64_MAX};
  const uint64_t from = ends[below(7)] + below(3) - 1, to = ends[below(7)] + below(3) - 1;
  const uint64_t address = below(2) ? from : from + below(64), many = below(2) ? to - address : below(4) ? below(64) : to;
  struct ibz_slice p = {journal, journal_length};
  const uint32_t number = ibz_part(memory, memory_length, rom, rom_length, address, many, &p);
  const int first = holds_it(memory_length, address, many);
  const int second = address >= IBZ_ROM_START && holds_it(rom_length, address - IBZ_ROM_START, many);
  EXPECT(can_give("01CD", number) && same_state() && same_journal(0, journal_length));
  EXPECT(number != 0 || first || second);
  EXPECT(number != 13 || (!first && !second));
  EXPECT(p.length == (number == 0 ? many : 0));
  EXPECT(p.bytes == (number != 0 ? memory : first ? memory + address : rom + (address - IBZ_ROM_START)));
  if (number == 0 && many > 0) found_in[!first]++;
  return number;
}

static unsigned long posted; /* conversions that were done, of some bytes */

static struct ibz_form_answer form_by(int two, const uint8_t *from, size_t n, uint8_t *to, size_t room) {
  return two ? ibz_to_form_two(from, n, to, room) : ibz_to_form_one(from, n, to, room);
}

/* The used bytes, from their start, from where this box's records begin or from anywhere, taken for either form. */
static uint32_t one_form(int two) {
  static uint8_t old_target[LARGEST], back[LARGEST];
  const unsigned t = below(LENGTHS), how = below(4);
  const size_t used = mark < journal_length ? mark : journal_length, room = lengths[t];
  const size_t from = how == 0 ? 0 : how == 1 || begun > used ? below((uint32_t)used + 1) : begun, n = used - from;
  uint8_t *const target = targets[below(2)][t];
  memset(target, (int)below(256), room);
  memcpy(old_target, target, room);
  const struct ibz_form_answer a = form_by(two, journal + from, n, target, room);
  const int fits = a.length <= (a.number == 0 ? room : 0);
  EXPECT(can_give("08B", a.number) && (n != 0 || a.number == 0) && same_state() && same_journal(0, journal_length));
  EXPECT(fits && memcmp(target + a.length, old_target + a.length, room - a.length) == 0);
  if (a.number == 0 && fits) {
    const struct ibz_form_answer b = form_by(!two, target, a.length, back, n);
    EXPECT(b.number == 0 && b.length == n && memcmp(back, journal + from, n) == 0);
    EXPECT(n == 0 || form_by(!two, target, a.length, back, n - 1).number == 11);
    posted += n > 0;
  }
  return a.number;
}

static uint32_t to_two(void) { return one_form(1); }

static uint32_t to_one(void) { return one_form(0); }

enum { CALLS = 9, NUMBERS = 14 };

int main(int argc, char **argv) {
  const unsigned long calls = argc > 1 ? strtoul(argv[1], NULL, 10) : 1000000;
  if (argc > 2) seed ^= strtoul(argv[2], NULL, 10) * 2654435761u;
  unsigned long counts[CALLS][NUMBERS] = {{0}};
  for (int end = 0; end < 2; end++) {
    for (unsigned i = 0; i < LENGTHS; i++)
      memories[end][i] = guarded(lengths[i], end), journals[end][i] = guarded(lengths[i], end), targets[end][i] = guarded(lengths[i], end);
    for (unsigned i = 0; i < BLOCKS; i++) blocks[end][i] = guarded(block_lengths[i], end);
    for (unsigned i = 0; i < ROMS; i++) {
      roms[end][i] = guarded(rom_lengths[i], end);
      for (size_t k = 0; k < rom_lengths[i]; k++) roms[end][i][k] = (uint8_t)any();
      may_write(roms[end][i], rom_lengths[i], end, 0);
    }
  }
  for (unsigned long done = 0; done < calls;) {
    lend();
    for (unsigned turn = below(24); turn > 0 && done < calls; turn--, done++) {
      keep();
      if (below(8) == 0) a_window();
      static uint32_t (*const asked[])(void) = {one_reset, one_step, one_run, one_undo, one_try, one_back, one_part, to_two, to_one};
      const unsigned call = below(16) == 0 ? 0 : below(8) == 0 ? 6 + below(3) : 1 + below(5);
      const int bad = bad_window();
      const uint32_t number = asked[call]();
      if (mark < begun) begun = mark;
      counts[call][number < NUMBERS ? number : 9]++;
      const int none = call == 5 && number == 0; /* of 0 steps nothing is asked */
      if (call < 6) { /* a part asks for no block and window, a conversion for no memory and ROM either */
        EXPECT((number == 9) == (block_length != IBZ_BLOCK_LENGTH));
        EXPECT(number != 10 || bad);
        EXPECT(!bad || call == 0 || number == 9 || number == 1 || number == 12 || number == 2 || number == 10 || none);
      }
      if (call < 7) EXPECT((number == 12) == (bad_rom() && number != 9 && number != 1 && !none));
      if (fails > 20) return verdict("garbage");
    }
  }
  static const char *const names[CALLS] = {"reset", "step", "run", "undo", "try", "back", "part", "two", "one"};
  for (unsigned c = 0; c < CALLS; c++) {
    printf("%-5s", names[c]);
    for (unsigned n = 0; n < NUMBERS; n++)
      if (counts[c][n] != 0) printf("  %u: %lu", n, counts[c][n]);
    puts("");
  }
  printf("records dropped: %llu\n", (unsigned long long)dropped_in_all);
  printf("tries, by their ends:");
  for (unsigned i = 1; i <= 5; i++) printf(" %lu", tries[i]);
  printf("; %lu quiet steps in windows, %lu in the ROM\n", quiet, in_rom);
  printf("parts of memory: %lu, of the ROM: %lu\n", found_in[0], found_in[1]);
  printf("journals there and back: %lu\n", posted);
  EXPECT(calls < 10000 || (dropped_in_all > 0 && quiet > 0 && in_rom > 0 && found_in[0] > 0 && found_in[1] > 0 && posted > 0));
  for (unsigned i = 1; i <= 5; i++) EXPECT(calls < 10000 || tries[i] > 0);
  return verdict("garbage");
}
