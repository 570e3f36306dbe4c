/* movem.c - MOVEM held to a model of its own, written from the manual's page and from 01's rules: every block edge of a memory of 4,096
 * bytes between pages that can not be touched, blocks anywhere, also across the edges of a window, and blocks that wrap in a memory of
 * 16 MiB. After each step the answer, block and memory are what the model has; it is then undone, and they are what they were.
 * Arguments: how many blocks anywhere, and a seed.
 * With -DWRONG_MOVEM=1 to 4 the model is wrong, and the test must fail: -(An) is asked for upward; An's last value is stored; a word is
 * loaded without its sign; the window's end may cut a word. */
#include "tests.h"

#ifdef WRONG_MOVEM
#define WRONG_MODEL(n) (WRONG_MOVEM == (n))
#else
#define WRONG_MODEL(n) 0
#endif

enum { SMALL = 4096, BLOCK = IBZ_BLOCK_LENGTH, MARK = 64, JOURNAL = MARK + IBZ_RECORD_MOST, CUT = 0xFFFFFF, LOAD = 0x400 };
enum { LONG = 0x40, S = 0x2000, T = 0x8000 };

/* The instruction: its words. */
struct asked {
  unsigned op, list, more[2];
};

/* What is lent; what it was, and what the model makes of it. Between steps `memory` and `model` hold the same, in all of `all` bytes. */
static uint8_t *block, *journal, *memory, *model, *memory_all, *model_all, old[BLOCK], want[BLOCK];
static size_t length, all;
static uint32_t lo, hi; /* the window */
static unsigned long checks, fenced, ends[258];

/* The bytes that the model wrote, as they were. */
static struct {
  uint32_t at;
  uint8_t byte;
} wrote[128];
static unsigned writes;

static void put(uint32_t at, unsigned word) {
  for (unsigned i = 0; i < 2; i++, writes++) {
    wrote[writes].at = at + i, wrote[writes].byte = model[at + i];
    model[at + i] = (uint8_t)(i == 0 ? word >> 8 : word);
  }
}

static void take_back(unsigned count) {
  while (writes > count) writes--, model[wrote[writes].at] = wrote[writes].byte;
}

static uint32_t word_at(uint32_t at) { return (uint32_t)model[at] << 8 | model[at + 1]; }

/* The vector of the fault that a word at this address makes, or 0: of a frame's, and of an operand's, which in user state is fenced. */
static unsigned fault_of(uint32_t at) { return at % 2 != 0 ? 3 : at + 2 > length ? 2 : 0; }

static unsigned fault_in(uint32_t at, uint32_t sr) {
  const unsigned vector = fault_of(at), outside = (sr & S) == 0 && (at < lo || at + 2 - WRONG_MODEL(4) > hi);
  fenced += vector == 0 && outside;
  return vector == 0 && outside ? 2 : vector;
}

static uint32_t sign(uint32_t value, uint32_t top) { return (value & (2 * top - 1)) < top ? value & (top - 1) : value | (0 - top); }

/* The slot of D0 .. D7, A0 .. A7. */
static unsigned slot(unsigned r, uint32_t sr) { return r == 15 && (sr & S) != 0 ? (unsigned)IBZ_SSP : r; }

/* An exception, by the words of its frame: all of them or none, and then the vector; the machine halts if it can not be. */
static unsigned enter(unsigned vector, const uint32_t *frame, unsigned words) {
  const uint32_t ssp = ibz_get(want, IBZ_SSP) - 2 * words;
  const unsigned before = writes;
  int good = 1;
  for (unsigned i = 0; i < words; i++) good = good && fault_of((ssp + 2 * i) & CUT) == 0;
  for (unsigned i = 0; i < words && good; i++) put((ssp + 2 * i) & CUT, frame[i] & 0xFFFFu);
  const uint32_t handler = word_at(4 * vector) << 16 | word_at(4 * vector + 2);
  if (!good || (vector <= 3 && handler % 2 != 0)) {
    take_back(before);
    ibz_set(want, IBZ_MODE, IBZ_MODE_HALTED);
    return IBZ_EVENT_HALT;
  }
  ibz_set(want, IBZ_SSP, ssp), ibz_set(want, IBZ_PC, handler), ibz_set(want, IBZ_SR, (ibz_get(want, IBZ_SR) & ~(uint32_t)T) | S);
  return vector + 1;
}

/* Where the operand is, formed before anything is moved, and how many words follow the list. */
static uint32_t place(const struct asked *q, unsigned *more) {
  const unsigned mode = q->op >> 3 & 7, r = q->op & 7;
  const uint32_t sr = ibz_get(old, IBZ_SR), x = q->more[0], i = ibz_get(old, slot(x >> 12, sr));
  const uint32_t from = mode == 7 ? ibz_get(old, IBZ_PC) + 4 : ibz_get(old, slot(8 + r, sr));
  *more = mode < 5 ? 0 : mode == 7 && r == 1 ? 2 : 1;
  if (mode < 5) return from;
  if (mode == 7 && r < 2) return r == 0 ? sign(x, 0x8000) : x << 16 | q->more[1];
  if (mode == 5 || (mode == 7 && r == 2)) return from + sign(x, 0x8000);
  return from + sign(x & 0xFF, 0x80) + ((x & 0x800) != 0 ? i : sign(i & 0xFFFF, 0x8000));
}

/* One MOVEM: `want` and `model` after it; its event. */
static unsigned movem(const struct asked *q) {
  const uint32_t sr = ibz_get(old, IBZ_SR), pc = ibz_get(old, IBZ_PC);
  const unsigned mode = q->op >> 3 & 7, r = q->op & 7, size = (q->op & LONG) != 0 ? 4 : 2, load = (q->op & LOAD) != 0, down = mode == 4;
  unsigned more, n = 0, listed[16];
  const uint32_t from = place(q, &more);
  for (unsigned bit = 0; bit < 16; bit++) /* the list's lowest bit goes first: D0, or A7 downward */
    if ((q->list >> bit & 1) != 0) listed[n++] = down ? 15 - bit : bit;
  const uint32_t last = down ? from - n * size : from + n * size;
  for (unsigned i = 0; i < n * size; i += 2) { /* every word is asked for before any is moved */
    const unsigned k = (WRONG_MODEL(1) && down ? n * size - 2 - i : i) / size, half = i % size;
    const uint32_t at = ((down ? from - (k + 1) * size : from + k * size) + half) & CUT;
    const unsigned vector = fault_in(at, sr), program = mode == 7 && r >= 2;
    const uint32_t frame[7] = {(load ? 16u : 0) | ((sr & S) != 0 ? 4u : 0) | (program ? 2u : 1u), at >> 16, at, q->op, sr, (pc + 2) >> 16, pc + 2};
    if (vector != 0) return enter(vector, frame, 7);
  }
  for (unsigned k = 0; k < n; k++) {
    const uint32_t at = down ? from - (k + 1) * size : from + k * size, low = (at + size - 2) & CUT;
    if (load) {
      const uint32_t word = word_at(low);
      ibz_set(want, slot(listed[k], sr), size == 4 ? word_at(at & CUT) << 16 | word : WRONG_MODEL(3) ? word : sign(word, 0x8000));
    } else {
      const uint32_t value = WRONG_MODEL(2) && down && listed[k] == 8 + r ? last : ibz_get(old, slot(listed[k], sr));
      if (size == 4) put(at & CUT, value >> 16);
      put(low, value & 0xFFFFu);
    }
  }
  if (down || mode == 3) ibz_set(want, slot(8 + r, sr), last);
  const uint32_t next = pc + 4 + 2 * more, frame[3] = {sr, next >> 16, next};
  ibz_set(want, IBZ_PC, next);
  return (sr & T) != 0 ? enter(9, frame, 3) : 0;
}

/* The first difference ends the test. */
static void differs(const struct asked *q, const char *what, size_t at, unsigned is, unsigned wanted) {
  printf("movem: %04X %04X %04X %04X, memory of %lu bytes, ", q->op, q->list, q->more[0], q->more[1], (unsigned long)length);
  printf("window from %X to %X; before, from D0 on:", (unsigned)lo, (unsigned)hi);
  for (unsigned i = 0; i < IBZ_SLOTS; i++) printf(" %08X", (unsigned)ibz_get(old, i));
  printf("\nmovem: %s %lX is %X, not %X\n", what, (unsigned long)at, is, wanted);
  exit(1);
}

/* The block, and memory: all of it if it is small, else its two ends and now and then all of it. */
static void same(const struct asked *q, const uint8_t *wanted, const char *a_slot, const char *a_byte) {
  for (unsigned i = 0; i < IBZ_SLOTS; i++)
    if (ibz_get(block, i) != ibz_get(wanted, i)) differs(q, a_slot, i, ibz_get(block, i), ibz_get(wanted, i));
  const size_t top = all - SMALL;
  const int equal = all == SMALL || checks % 512 == 0
                      ? memcmp(memory_all, model_all, all) == 0
                      : memcmp(memory_all, model_all, SMALL) == 0 && memcmp(memory_all + top, model_all + top, SMALL) == 0;
  for (size_t i = 0; i < all && !equal; i++)
    if (memory_all[i] != model_all[i]) differs(q, a_byte, i - (size_t)(memory - memory_all), memory_all[i], model_all[i]);
}

/* One step of what the block says, and back. */
static void try_one(const struct asked *q) {
  const unsigned words[4] = {q->op, q->list, q->more[0], q->more[1]};
  const uint32_t pc = ibz_get(block, IBZ_PC) & CUT;
  memcpy(old, block, BLOCK), memcpy(want, block, BLOCK);
  for (unsigned i = 0; i < 4; i++) put(pc + 2 * i, words[i]);
  memcpy(memory + pc, model + pc, 8);
  writes = 0;
  const unsigned event = movem(q);
  const struct ibz_step_answer a = checks % 2 == 0
                                       ? ibz_step(block, BLOCK, lo, hi, memory, length, IBZ_NO_ROM, 0, 0, journal, JOURNAL, MARK)
                                       : ibz_step_keeping(block, BLOCK, lo, hi, memory, length, IBZ_NO_ROM, 0, 0, journal, JOURNAL, MARK);
  if (a.number != 0 || a.event != event) differs(q, "the event, with number", a.number, a.event, event);
  if (a.moved != 0 || a.dropped != 0) differs(q, "dropped, with moved", a.moved, (unsigned)a.dropped, 0);
  same(q, want, "after the step slot", "after the step the byte at");
  take_back(0);
  const struct ibz_undo_answer u = ibz_undo(block, BLOCK, lo, hi, memory, length, IBZ_NO_ROM, journal, JOURNAL, a.mark);
  if (u.number != 0 || u.mark != MARK) differs(q, "undo's mark, with number", u.number, (unsigned)u.mark, MARK);
  same(q, old, "after undo slot", "after undo the byte at");
  for (unsigned i = 0; i < MARK; i++)
    if (journal[i] != 0xEE) differs(q, "the journal at", i, journal[i], 0xEE);
  checks++, ends[event]++;
}

/* Both memories filled alike, or their two ends. */
static void lend(uint8_t *lent, uint8_t *other, size_t n) {
  memory = memory_all = lent, model = model_all = other, length = all = n, lo = 0, hi = (uint32_t)n;
  for (size_t i = 0; i < n; i++)
    if (i < SMALL || i >= n - SMALL) lent[i] = other[i] = (uint8_t)any();
}

/* D0 to SSP of 68 bytes of which no two are the same; PC, SR and mode; vectors 2 and 3 even. */
static void set_up(uint32_t pc, uint32_t sr) {
  const uint32_t first = any(), step = any() | 1;
  for (uint32_t i = 0; i < 68; i++) block[i] = (uint8_t)(first + step * i);
  ibz_set(block, IBZ_PC, pc), ibz_set(block, IBZ_SR, sr), ibz_set(block, IBZ_MODE, 0);
  for (unsigned i = 11; i <= 15; i += 4) memory[i] = model[i] = (uint8_t)(model[i] & 0xFE);
}

/* All lists below, by A0 and A7 in both states, at each address from 70 below the centre to 70 above. */
static void edges(uint32_t centre) {
  static const uint16_t lists[] = {0,      0x0001, 0x0080, 0x0100, 0x8000, 0x0003, 0x8001, 0x0180, 0xC000, 0x00FF,
                                   0xFF00, 0x5555, 0xA5C3, 0x7FFF, 0xFFFE, 0xFEFF, 0xFF7F, 0xFFFF};
  static const uint16_t ops[] = {0x48A0, 0x4890, 0x48A8, 0x4C98, 0x4C90, 0x4CA8}; /* -(A0), (A0), d(A0); (A0)+, (A0), d(A0) */
  for (unsigned i = 0; i < 6 * 8 * sizeof lists / sizeof *lists; i++)
    for (uint32_t at = centre - 70; at != centre + 71; at++) {
      const unsigned r = (i & 1) != 0 ? 7 : 0, sr = (i & 2) != 0 ? S : 0;
      const struct asked q = {ops[i / 8 % 6] | r | (i & 4) << 4, lists[i / 48], {(below(141) - 70) & 0xFFFFu, any() & 0xFFFFu}};
      set_up(0xC3000800, sr);
      ibz_set(block, IBZ_SSP, 0x5A000C48), ibz_set(block, slot(8 + r, sr), at);
      try_one(&q);
    }
}

/* Any MOVEM in a memory of any small length: its operand is in memory or near it, and so is the stack for the most part. */
static void anything(uint8_t *lent, uint8_t *other, int at_end) {
  static const uint16_t eas[] = {0x20, 0x10, 0x28, 0x30, 0x38, 0x39, 0x418, 0x410, 0x428, 0x430, 0x438, 0x439, 0x43A, 0x43B};
  const uint32_t n = 1024 + 2 * below(1537), sr = any() & (below(4) != 0 ? 0x271Fu : 0xA71Fu), pc = (any() << 24) + 16 + 2 * below(n / 2 - 11);
  const uint32_t near = (any() << 24 | ((below(n + 160) - 80) & CUT)) & (below(4) != 0 ? 0xFFFFFFFEu : 0xFFFFFFFFu);
  const uint32_t x = any() & 0xFFFFu, byte = sign(x & 0xFF, 0x80), unused = (x & 0x800) != 0 ? 0 : any() << 16; /* half of an index */
  const unsigned ea = eas[below(14)], mode = ea >> 3 & 7, r = mode == 7 ? ea & 7 : below(8), index = slot(x >> 12, sr);
  struct asked q = {0x4880u | ea | r | below(2) << 6, any() & (below(4) == 0 ? any() : ~0u) & 0xFFFFu, {x, any() & 0xFFFFu}};
  memory_all = lent, model_all = other, all = SMALL, length = n;
  memory = lent + (at_end ? SMALL - n : 0), model = other + (at_end ? SMALL - n : 0);
  set_up(pc, sr);
  lo = 0, hi = n;
  if (below(2) == 0) lo = below((pc & CUT) + 1), hi = (pc & CUT) + 8 + below(n - (pc & CUT) - 7); /* the instruction is inside */
  if (below(8) != 0) ibz_set(block, IBZ_SSP, (any() << 24) + 2 * below(n / 2 + 8));
  const uint32_t by = mode == 6 ? below(256) - 128 : near - pc - 4 - byte; /* the index, where there is one */
  if (mode == 6 || (mode == 7 && r == 3)) ibz_set(block, index, by ^ unused);
  if (mode < 7) ibz_set(block, slot(8 + r, sr), near - (mode == 5 ? sign(x, 0x8000) : mode == 6 ? byte + by : 0));
  if (mode == 7 && r == 0) q.more[0] = near & 0xFFFFu;
  if (mode == 7 && r == 1) q.more[0] = near >> 16, q.more[1] = near & 0xFFFFu;
  if (mode == 7 && r == 2) q.more[0] = (near - pc - 4) & 0xFFFFu;
  try_one(&q);
}

int main(int argc, char **argv) {
  const unsigned long blocks = argc > 1 ? strtoul(argv[1], NULL, 10) : 200000;
  if (argc > 2) seed ^= strtoul(argv[2], NULL, 10) * 2654435761u;
  static uint8_t others[2][SMALL];
  uint8_t *small[2], *large = (uint8_t *)calloc(2, IBZ_MEMORY_MOST);
  if (large == NULL) return 2;
  block = guarded(BLOCK, 1), journal = guarded(JOURNAL, 1);
  memset(journal, 0xEE, MARK);
  for (int end = 0; end < 2; end++) {
    small[end] = guarded(SMALL, end);
    lend(small[end], others[end], SMALL);
    edges(0), edges(SMALL);
  }
  for (unsigned long i = 0; i < blocks; i++) anything(small[i % 2], others[i % 2], i % 2 != 0);
  lend(large, large + IBZ_MEMORY_MOST, IBZ_MEMORY_MOST);
  edges(0x7F000000);
  free(large);
  if (ends[0] == 0 || ends[3] == 0 || ends[4] == 0 || ends[IBZ_EVENT_HALT] == 0 || (blocks >= 1000 && (ends[10] == 0 || fenced == 0))) {
    puts("movem: one of its ends was never met");
    return 1;
  }
  printf("movem: %lu checks, %lu of them outside the window\n", checks, fenced);
  return 0;
}
