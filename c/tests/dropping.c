/* dropping.c - step and run where the journal is full and the oldest records are dropped (K5), held to reader.h: the numbers by hand; what
 * is refused; long mixes of steps, runs and undos on short journals, whole and damaged, between pages that can not be touched. Each step is
 * held to this, for every byte of the journal, those that mean nothing too: what it has to be by K5 and docs/FORMAT.md, and no other; each
 * run to the same steps one by one. Arguments: how many boxes, and a seed. */
#include "reader.h"

enum { MEMORY = 4096, JOURNAL = 65536, BLOCK = IBZ_BLOCK_LENGTH, LENGTHS = 16, SPARE = 4096 };

/* Journals shorter than a record, as long as one, and longer; the last fills its pages, so that it is guarded on both sides at once. */
static const size_t lengths[LENGTHS] = {0, 535, 536, 537, 538, 540, 546, 560, 600, 700, 1000, 1072, 1073, 1500, 4096, JOURNAL};

struct box {
  uint8_t *block, *memory, *journal;
  size_t memory_length, journal_length, mark;
};

/* Each at the start of its pages, and at their end; another to compare with, and copies of what was lent. */
static uint8_t *blocks[2], *memories[2], *journals[2][LENGTHS];
static uint8_t other_block[BLOCK], other_memory[MEMORY], other_journal[JOURNAL];
static struct box box, other = {other_block, other_memory, other_journal, 0, 0, 0};
static uint64_t dropped_in_all;

static void copy(struct box *to, const struct box *from) {
  to->memory_length = from->memory_length, to->journal_length = from->journal_length, to->mark = from->mark;
  memcpy(to->block, from->block, BLOCK);
  memcpy(to->memory, from->memory, from->memory_length);
  memcpy(to->journal, from->journal, from->journal_length);
}

static int same_state(const struct box *x, const uint8_t *block, const uint8_t *memory) {
  return memcmp(x->block, block, BLOCK) == 0 && memcmp(x->memory, memory, x->memory_length) == 0;
}

static int same(const struct box *x, const struct box *y) {
  return same_state(x, y->block, y->memory) && memcmp(x->journal, y->journal, x->journal_length) == 0 && x->mark == y->mark;
}

static struct ibz_step_answer step(struct box *x, uint32_t level, uint8_t vector) {
  return ibz_step(x->block, BLOCK, 0, (uint32_t)x->memory_length, x->memory, x->memory_length, IBZ_NO_ROM, level, vector, x->journal,
                  x->journal_length, x->mark);
}

static struct ibz_run_answer run(struct box *x, uint32_t budget, uint32_t stop) {
  return ibz_run(x->block, BLOCK, 0, (uint32_t)x->memory_length, x->memory, x->memory_length, IBZ_NO_ROM, budget, stop, x->journal,
                 x->journal_length, x->mark);
}

static struct ibz_undo_answer undo(struct box *x) {
  return ibz_undo(x->block, BLOCK, 0, (uint32_t)x->memory_length, x->memory, x->memory_length, IBZ_NO_ROM, x->journal, x->journal_length, x->mark);
}

/* ---- one call, held to what it has to be */

static uint8_t old_block[BLOCK], old_memory[MEMORY], wanted[JOURNAL], alone_block[BLOCK], alone_memory[MEMORY], spare[SPARE];

/* The number of a step that 8 does not refuse, by the table; memory's length and SR and mode are good ones here. */
static uint32_t number_before_8(const struct box *x, uint32_t level) {
  if (level > 7) return 3;
  if (x->mark > x->journal_length) return 4;
  if (x->journal_length < ROOM) return 5;
  return ibz_get(x->block, IBZ_MODE) == 2 ? 6 : 0;
}

/* One step: room by reader.h, the state and its clocks as those of a step with an empty journal, its record by reader.h. */
static struct ibz_step_answer one_step(struct box *x, uint32_t level, uint8_t vector) {
  const uint32_t number = number_before_8(x, level);
  memcpy(old_block, x->block, BLOCK), memcpy(old_memory, x->memory, x->memory_length);
  memcpy(alone_block, x->block, BLOCK), memcpy(alone_memory, x->memory, x->memory_length);
  memcpy(wanted, x->journal, x->journal_length);
  struct room r = {number, x->mark, 0, 0};
  if (number == 0) r = make_room(wanted, x->journal_length, x->mark, x->memory_length);
  const struct ibz_step_answer a = step(x, level, vector);
  if (r.number != 0) { /* refused: nothing is altered */
    EXPECT(a.number == r.number && a.mark == x->mark && a.event == 0 && a.clocks == 0 && a.moved == 0 && a.dropped == 0);
    EXPECT(same_state(x, old_block, old_memory) && memcmp(x->journal, wanted, x->journal_length) == 0);
    return a;
  }
  const struct ibz_step_answer alone =
      ibz_step_keeping(alone_block, BLOCK, 0, (uint32_t)x->memory_length, alone_memory, x->memory_length, IBZ_NO_ROM, level, vector, spare,
                       SPARE, 0);
  EXPECT(alone.number == 0 && alone.moved == 0 && alone.dropped == 0);
  const size_t next = r.mark + put_record(wanted + r.mark, old_block, alone_block, old_memory, alone_memory, x->memory_length);
  EXPECT(a.number == 0 && a.event == alone.event && a.clocks == alone.clocks);
  EXPECT(a.mark == next && a.moved == r.moved && a.dropped == r.dropped);
  EXPECT(same_state(x, alone_block, alone_memory) && memcmp(x->journal, wanted, x->journal_length) == 0);
  x->mark = a.mark;
  dropped_in_all += a.dropped;
  return a;
}

/* The reason for which a run ends with n steps done, in the order of the table, or 0. */
static uint32_t reason(const struct box *x, uint32_t n, uint32_t budget, uint32_t stop) {
  if (n == budget) return IBZ_REASON_BUDGET;
  if (ibz_get(x->block, IBZ_MODE) == 2) return IBZ_REASON_HALTED;
  if (ibz_get(x->block, IBZ_MODE) == 1) return IBZ_REASON_STOPPED;
  if (x->journal_length < ROOM) return IBZ_REASON_JOURNAL;
  if (x->journal_length - x->mark < ROOM && records_below(x->journal, x->mark, x->memory_length) == NOWHERE) return IBZ_REASON_RECORD;
  return ibz_get(x->block, IBZ_PC) == stop ? IBZ_REASON_ADDRESS : 0;
}

/* One run, and the same steps one by one on another box, each of them held to what it has to be. */
static struct ibz_run_answer one_run(struct box *x, uint32_t budget, uint32_t stop) {
  uint32_t n = 0, why;
  uint64_t clocks = 0, moved = 0, dropped = 0;
  copy(&other, x);
  const struct ibz_run_answer a = run(x, budget, stop);
  x->mark = a.mark;
  for (; (why = reason(&other, n, budget, stop)) == 0; n++) {
    const struct ibz_step_answer s = one_step(&other, 0, 0);
    if (s.number != 0) break; /* it was told already */
    clocks += s.clocks, moved += s.moved, dropped += s.dropped;
  }
  EXPECT(a.number == 0 && a.reason == why && a.steps == n && a.clocks == clocks);
  EXPECT(a.moved == moved && a.dropped == dropped && same(x, &other));
  return a;
}

/* An undo: done exactly if a record stands there; whole records are those of steps on this box. */
static int one_undo(struct box *x) {
  copy(&other, x);
  const size_t start = x->mark == 0 ? NOWHERE : begins(x->journal, x->mark, x->memory_length);
  const struct ibz_undo_answer a = undo(x);
  if (a.number == 0) {
    EXPECT(a.mark == start && memcmp(x->journal, other.journal, x->journal_length) == 0);
  } else {
    EXPECT(a.number == (x->mark == 0 ? 7u : 8u) && a.mark == x->mark && same(x, &other));
  }
  x->mark = a.mark;
  return a.number == 0;
}

/* ---- boxes */

static void put(uint8_t *memory, uint32_t at, unsigned word) {
  memory[at] = (uint8_t)(word >> 8);
  memory[at + 1] = (uint8_t)word;
}

/* A box on the buffers of one end: all slots 0 but PC and SSP, supervisor, and the words from 0x400 on. */
static void lend(unsigned end, unsigned length, const uint16_t *words, unsigned n) {
  const struct box lent = {blocks[end], memories[end], journals[end][length], MEMORY, lengths[length], 0};
  box = lent;
  memset(box.block, 0, BLOCK), memset(box.memory, 0, MEMORY), memset(box.journal, 0xEE, box.journal_length);
  ibz_set(box.block, IBZ_PC, 0x400), ibz_set(box.block, IBZ_SSP, 0xC00), ibz_set(box.block, IBZ_SR, 0x2000);
  for (unsigned i = 0; i < n; i++) put(box.memory, 0x400 + 2 * i, words[i]);
  for (unsigned v = 2; v < 256; v++) put(box.memory, 4 * v + 2, 0x380); /* every handler: RTE */
  put(box.memory, 0x380, 0x4E73);
}

/* What a program is made of: records of 5 bytes to some 180. The vectors of the last words' exceptions are set. */
static const struct { uint16_t words[3]; unsigned n; } parts[] = {
    {{0x4E71, 0, 0}, 1},           {{0x4680, 0, 0}, 1}, {{0x4681, 0, 0}, 1},           {{0x4682, 0, 0}, 1}, /* NOP; NOT.L Dn */
    {{0x4683, 0, 0}, 1},           {{0x4684, 0, 0}, 1}, {{0x4685, 0, 0}, 1},           {{0x4686, 0, 0}, 1},
    {{0x48F8, 0x00FF, 0x0900}, 3}, {{0x5242, 0, 0}, 1}, {{0x46B8, 0x0900, 0}, 2},      {{0x4E40, 0, 0}, 1}, /* MOVEM ADDQ NOT TRAP */
    {{0x4AFC, 0, 0}, 1},           {{0x7001, 0, 0}, 1}, {{0x42B8, 0x0910, 0}, 2},      {{0x48F8, 0x7FFF, 0x0940}, 3}};

/* A program that goes round for ever, or at times stops, or branches to itself. */
static void random_program(unsigned end, unsigned length) {
  uint16_t words[64];
  unsigned n = 0;
  for (unsigned left = 1 + below(12); left > 0; left--) {
    const unsigned p = below(sizeof parts / sizeof *parts);
    for (unsigned i = 0; i < parts[p].n; i++) words[n++] = parts[p].words[i];
  }
  if (below(8) == 0) words[n++] = 0x4E72, words[n++] = 0x2000; /* STOP */
  if (below(8) == 0) words[n++] = 0x60FE;
  words[n] = 0x6000, words[n + 1] = (uint16_t)(0u - 2u * (n + 1)); /* BRA to the first */
  lend(end, length, words, n + 2);
  for (unsigned i = 0; i < 15; i++) ibz_set(box.block, i, any());
}

/* ---- by hand */

static void by_hand(void) {
  static const uint16_t itself[] = {0x60FE}, moveq[] = {0x7001, 0x7000, 0x60FA}; /* BRA to itself: 00 00. MOVEQ #1 and #0, and round */
  struct ibz_step_answer a;
  for (unsigned end = 0; end < 2; end++) {
    lend(end, 6, itself, 1); /* 546 bytes: six records of two bytes fit, and from then on each step drops one and moves five */
    for (size_t i = 1; i <= 20; i++) {
      a = one_step(&box, 0, 0);
      EXPECT(a.number == 0 && a.mark == (i < 6 ? 2 * i : 12) && a.dropped == (i > 6) && a.moved == (i > 6 ? 10 : 0));
    }
    for (size_t i = 12; i < 546; i++) EXPECT(box.journal[i] == 0xEE);
    lend(end, 6, itself, 1);
    const struct ibz_run_answer r = one_run(&box, 100, 0);
    EXPECT(r.number == 0 && r.reason == IBZ_REASON_BUDGET && r.steps == 100 && r.mark == 12 && r.dropped == 94 && r.moved == 940);
    lend(end, 2, itself, 1); /* 536: every record goes, and none is moved */
    EXPECT(step(&box, 0, 0).mark == 2);
    box.mark = 2;
    a = one_step(&box, 0, 0);
    EXPECT(a.number == 0 && a.mark == 2 && a.dropped == 1 && a.moved == 0);
    lend(end, 3, moveq, 3); /* 537: D0 0 and PC, then D0 1, PC and SR, which gets Z. 6 bytes are wanted, and 7 go */
    EXPECT(one_step(&box, 0, 0).mark == 7 && memcmp(box.journal, "\x00\x00\x11\x08\x80\x02\x00", 7) == 0);
    a = one_step(&box, 0, 0);
    EXPECT(a.mark == 10 && a.dropped == 1 && a.moved == 0 && memcmp(box.journal, "\x00\x01\x11\x08\x82\x12\x40\x80\x03\x00", 10) == 0);
    lend(end, 8, itself, 1); /* 600: 64 is the last mark with room; a record that begins where the room does stays */
    memset(box.journal, 0, 66);
    box.mark = 64;
    a = one_step(&box, 0, 0);
    EXPECT(a.mark == 66 && a.dropped == 0 && a.moved == 0);
    a = one_step(&box, 0, 0);
    EXPECT(a.mark == 66 && a.dropped == 1 && a.moved == 64);
  }
}

/* docs/FORMAT.md section 10: four records, 23 bytes, in journals of many lengths; a step that adds 00 00. */
static void worked(void) {
  static const uint8_t four[] = {0x00, 0x00, 0x11, 0x04, 0x80, 0x02, 0x00, 0x00, 0x00, 0x11, 0x04, 0x80,
                                 0x12, 0x00, 0x06, 0x80, 0x00, 0x02, 0x01, 0x13, 0x00, 0x01, 0x00};
  static const uint8_t after_550[] = {0x11, 0x04, 0x80, 0x12, 0x00, 0x06, 0x80, 0x00, 0x02, 0x01, 0x13, 0x00,
                                      0x01, 0x00, 0x00, 0x00, 0x00, 0x02, 0x01, 0x13, 0x00, 0x01, 0x00, 0x00};
  static const struct { size_t length, mark, moved, dropped; uint32_t number; } cases[] = {
      {559, 23, 0, 0, 0}, {558, 16, 16, 1, 0}, {550, 14, 14, 2, 0}, {549, 4, 4, 3, 0},
      {540, 4, 4, 3, 0},  {539, 0, 0, 4, 0},   {535, 23, 0, 0, 5}};
  static const uint16_t itself[] = {0x60FE};
  for (unsigned i = 0; i < sizeof cases / sizeof *cases; i++)
    for (unsigned damaged = 0; damaged < 4; damaged++) { /* whole; 47 at place 8; address $300 past memory's end; a byte before all */
      const size_t extra = damaged == 3, length = cases[i].length + extra;
      lend(i % 2, 14, itself, 1); /* a part of 4,096 bytes: what is past it is seen to stay too */
      memset(box.journal, 0, box.journal_length);
      memcpy(box.journal + extra, four, sizeof four);
      box.mark = sizeof four + extra, box.memory_length = 1024;
      ibz_set(box.block, IBZ_PC, 0x2F0), put(box.memory, 0x2F0, 0x60FE);
      if (damaged == 1) box.journal[8] = 0x47;
      if (damaged == 2) box.journal[9 + 5] = 0x08; /* $400, of 1,024 */
      const uint32_t number = length < 536 ? 5 : damaged != 0 && cases[i].length < 559 ? 8 : 0;
      box.journal_length = length;
      const struct ibz_step_answer a = one_step(&box, 0, 0);
      EXPECT(a.number == number);
      if (number == 0) EXPECT(a.mark == cases[i].mark + extra + 2 && a.moved == cases[i].moved && a.dropped == cases[i].dropped);
      if (length == 550) EXPECT(number != 0 || memcmp(box.journal, after_550, sizeof after_550) == 0);
      size_t altered = 0;
      for (size_t k = length; k < 4096; k++) altered += box.journal[k] != 0;
      EXPECT(altered == 0);
    }
}

/* ---- what is refused, and a run's reasons */

/* Bytes that end no well-shaped record, for a memory of 1,024 (docs/FORMAT.md 5), and two that do. */
static const struct { unsigned n; uint8_t bytes[6]; int shaped; } records[] = {
    {1, {0x00}, 0},                               /* begins before place 0 */
    {1, {0x80}, 0},                               /* a number without its first group */
    {3, {0x00, 0x00, 0x80}, 0},                   /* a number that is not the shortest */
    {2, {0x15, 0x00}, 0},                         /* 21 slots */
    {2, {0x00, 0x47}, 0},                         /* 71 bytes */
    {6, {0x01, 0x00, 0x00, 0x00, 0x02, 0x00}, 0}, /* slots that do not ascend */
    {4, {0x14, 0x00, 0x01, 0x00}, 0},             /* slot 20 */
    {4, {0x12, 0x20, 0x01, 0x00}, 0},             /* an SR that can not be */
    {4, {0x13, 0x03, 0x01, 0x00}, 0},             /* a mode that can not be */
    {6, {0x01, 0x01, 0x00, 0x01, 0x00, 0x02}, 0}, /* addresses that do not ascend */
    {5, {0x08, 0x80, 0x01, 0x00, 0x01}, 0},       /* address 1,024 */
    {5, {0x00, 0x02, 0x80, 0x00, 0x01}, 0},       /* a byte of 256 */
    {4, {0x00, 0x00, 0x01, 0x00}, 1},             /* a slot that holds its old value: not well formed, but well shaped */
    {4, {0x0A, 0x00, 0x00, 0x01}, 1}};            /* a byte that holds its old value */

static void refusals(void) {
  static const uint16_t itself[] = {0x60FE};
  for (unsigned i = 0; i < sizeof records / sizeof *records; i++)
    for (unsigned above = 0; above < 3; above++) { /* so many whole records after it: it is on the way back all the same */
      const size_t mark = records[i].n + 2 * above;
      lend(i % 2, 2, itself, 1);
      box.memory_length = 1024, ibz_set(box.block, IBZ_PC, 0x3F0), put(box.memory, 0x3F0, 0x60FE);
      memcpy(box.journal, records[i].bytes, records[i].n);
      memset(box.journal + records[i].n, 0, 2 * above);
      box.mark = mark;
      const struct ibz_step_answer a = one_step(&box, 0, 0); /* 536 bytes: no room */
      EXPECT(records[i].shaped ? a.number == 0 && a.mark == 2 && a.dropped == 1 + above : a.number == IBZ_BAD_RECORD);
      if (records[i].shaped) continue;
      const struct ibz_run_answer b = one_run(&box, 5, 0x3F0); /* reason 6 is asked before 5 */
      EXPECT(b.number == 0 && b.reason == IBZ_REASON_RECORD && b.steps == 0 && b.mark == mark && b.moved == 0 && b.dropped == 0);
      EXPECT(ibz_step_keeping(box.block, BLOCK, 0, 1024, box.memory, 1024, IBZ_NO_ROM, 0, 0, box.journal, 536, mark).number == IBZ_JOURNAL_FULL);
      EXPECT(run(&box, 0, 0x3F0).reason == IBZ_REASON_BUDGET); /* and after 1 to 4 */
      box.journal_length = 535;
      EXPECT(step(&box, 0, 0).number == IBZ_JOURNAL_FULL && run(&box, 5, 0x3F0).reason == IBZ_REASON_JOURNAL);
      box.journal_length = 536;
      ibz_set(box.block, IBZ_MODE, IBZ_MODE_STOPPED);
      EXPECT(one_step(&box, 0, 0).number == IBZ_BAD_RECORD && one_run(&box, 5, 0x3F0).reason == IBZ_REASON_STOPPED);
      ibz_set(box.block, IBZ_MODE, IBZ_MODE_HALTED);
      EXPECT(one_step(&box, 0, 0).number == IBZ_IS_HALTED && one_run(&box, 5, 0x3F0).reason == IBZ_REASON_HALTED);
      /* with room it is not judged: two more records fit, and then the run ends */
      lend(i % 2, 8, itself, 1);
      box.memory_length = 1024, ibz_set(box.block, IBZ_PC, 0x3F0), put(box.memory, 0x3F0, 0x60FE);
      memset(box.journal, 0, 61), memcpy(box.journal, records[i].bytes, records[i].n);
      box.mark = 62 - (records[i].n % 2);
      const struct ibz_run_answer c = one_run(&box, 5, 0);
      EXPECT(c.reason == IBZ_REASON_RECORD && c.steps == 2 && c.mark == 66 - (records[i].n % 2) && c.dropped == 0 && c.moved == 0);
    }
  lend(0, 2, itself, 1); /* PC is the stop address, and room would have to be made: nothing is moved */
  memset(box.journal, 0, 4);
  box.mark = 4;
  const struct ibz_run_answer a = one_run(&box, 5, 0x400);
  EXPECT(a.reason == IBZ_REASON_ADDRESS && a.steps == 0 && a.mark == 4 && a.moved == 0 && a.dropped == 0);
  for (unsigned length = 0; length < 2; length++) { /* shorter than a record altogether */
    lend(1, length, itself, 1);
    EXPECT(one_step(&box, 0, 0).number == IBZ_JOURNAL_FULL && one_run(&box, 5, 0x400).reason == IBZ_REASON_JOURNAL);
    box.mark = box.journal_length + 1;
    EXPECT(one_step(&box, 0, 0).number == IBZ_BAD_MARK && one_step(&box, 8, 0).number == IBZ_BAD_REQUEST);
  }
}

/* ---- mixes */

static void one_call(void) {
  switch (below(8)) {
  case 0: case 1: one_run(&box, below(60), below(4) ? 0xFFFFFFFFu : 0x400 + 2 * below(16)); break;
  case 2: for (unsigned n = below(12); n > 0 && one_undo(&box); n--) {} break;
  case 3: one_step(&box, below(9), (uint8_t)any()); break;
  default: one_step(&box, 0, 0);
  }
}

/* A byte of the journal is another, or the mark is, or memory ends earlier, or the state is one that was not reached. */
static void damage(void) {
  switch (below(4)) {
  case 0: if (box.mark > 0) box.journal[below((uint32_t)box.mark)] = (uint8_t)any(); break;
  case 1: box.mark = below((uint32_t)box.journal_length + 1); break;
  case 2: box.memory_length = 1024 + 2 * below((MEMORY - 1024) / 2); break;
  default: ibz_set(box.block, below(16), any());
  }
}

static void mixes(unsigned long boxes) {
  for (unsigned long i = 0; i < boxes && fails < 20; i++) {
    random_program(below(2), 1 + below(below(8) ? LENGTHS - 2 : LENGTHS - 1)); /* the long one seldom */
    if (box.journal_length == JOURNAL) memset(box.journal, 0, JOURNAL), box.mark = JOURNAL - 2 * below(800); /* records of 00 00 */
    const unsigned whole = below(40);
    for (unsigned turn = 0; turn < 60; turn++) {
      if (turn == whole && below(2)) damage();
      one_call();
    }
  }
}

/* Steps on a short journal, and back as far as records are left: the state is what the steps before them alone lead to, and then 7. */
static void ways_back(unsigned long boxes) {
  static uint8_t start_block[BLOCK], start_memory[MEMORY], journal[JOURNAL];
  for (unsigned long i = 0; i < boxes && fails < 20; i++) {
    random_program(below(2), 2 + below(LENGTHS - 4));
    memcpy(start_block, box.block, BLOCK), memcpy(start_memory, box.memory, MEMORY);
    uint64_t dropped = 0;
    uint32_t steps = 0, left = 0;
    for (const uint32_t wants = 40 + below(200); steps < wants;) {
      const struct ibz_run_answer a = one_run(&box, 1 + below(wants - steps), 0xFFFFFFFFu);
      steps += a.steps, dropped += a.dropped;
      if (a.reason != IBZ_REASON_BUDGET) break;
    }
    const size_t kept = records_below(box.journal, box.mark, MEMORY);
    EXPECT(kept == steps - dropped);
    for (; box.mark > 0 && one_undo(&box); left++) {}
    EXPECT(left == kept && box.mark == 0 && undo(&box).number == IBZ_NO_RECORD);
    const struct ibz_run_answer a =
        ibz_run_keeping(start_block, BLOCK, 0, MEMORY, start_memory, MEMORY, IBZ_NO_ROM, steps - left, 0xFFFFFFFFu, journal, JOURNAL, 0);
    EXPECT(a.steps == steps - left && a.moved == 0 && a.dropped == 0 && same_state(&box, start_block, start_memory));
  }
}

/* Runs so long that no record of before is left, and most of their own are dropped again; what begins where is kept as the steps go. */
static void long_runs(void) {
  enum { STEPS = 12000 };
  static size_t starts[JOURNAL]; /* where the records that are left begin, in a ring, counted from where the first of all began */
  uint16_t words[64];
  unsigned n = 0;
  for (unsigned p = 0; p < sizeof parts / sizeof *parts; p++)
    for (unsigned i = 0; i < parts[p].n && parts[p].words[0] != 0x4AFC; i++) words[n++] = parts[p].words[i];
  words[n] = 0x6000, words[n + 1] = (uint16_t)(0u - 2u * (n + 1));
  for (unsigned length = 2; length < LENGTHS; length += length < 10 ? 4 : 1) {
    lend(length % 2, length, words, n + 2);
    struct box *const x = &other;
    size_t base = 0, head = 0, tail = 0;
    uint64_t clocks = 0, moved = 0, dropped = 0;
    for (; 2 * tail < box.journal_length; tail++) starts[tail] = 2 * tail; /* records of 00 00, up to the end */
    memset(box.journal, 0, box.journal_length);
    box.mark = 2 * tail <= box.journal_length ? 2 * tail : 2 * --tail;
    copy(x, &box);
    const struct ibz_run_answer a = run(&box, STEPS, 0xFFFFFFFFu);
    box.mark = a.mark;
    for (unsigned i = 0; i < STEPS; i++) {
      if (x->journal_length - x->mark < ROOM) {
        const size_t before = head, missing = ROOM - (x->journal_length - x->mark);
        while (head < tail && starts[head % JOURNAL] - base < missing) head++;
        const size_t cut = head < tail ? starts[head % JOURNAL] - base : x->mark;
        memmove(x->journal, x->journal + cut, x->mark - cut);
        base += cut, x->mark -= cut, moved += x->mark, dropped += head - before;
      }
      starts[tail++ % JOURNAL] = base + x->mark;
      memcpy(old_block, x->block, BLOCK), memcpy(old_memory, x->memory, MEMORY);
      clocks += ibz_step_keeping(x->block, BLOCK, 0, MEMORY, x->memory, MEMORY, IBZ_NO_ROM, 0, 0, spare, SPARE, 0).clocks;
      x->mark += put_record(x->journal + x->mark, old_block, x->block, old_memory, x->memory, MEMORY);
    }
    EXPECT(a.number == 0 && a.reason == IBZ_REASON_BUDGET && a.steps == STEPS && a.clocks == clocks);
    EXPECT(a.moved == moved && a.dropped == dropped && same(&box, x) && dropped > STEPS / 2);
    EXPECT(records_below(box.journal, box.mark, MEMORY) == tail - head);
  }
}

int main(int argc, char **argv) {
  const unsigned long boxes = argc > 1 ? strtoul(argv[1], NULL, 10) : 1000;
  if (argc > 2) seed ^= strtoul(argv[2], NULL, 10) * 2654435761u;
  for (int end = 0; end < 2; end++) {
    blocks[end] = guarded(BLOCK, end), memories[end] = guarded(MEMORY, end);
    for (unsigned i = 0; i < LENGTHS; i++) journals[end][i] = guarded(lengths[i], end);
  }
  by_hand();
  worked();
  refusals();
  mixes(boxes);
  ways_back(boxes / 4);
  if (fails == 0) long_runs(); /* it takes its time */
  EXPECT(dropped_in_all > boxes);
  printf("records dropped: %llu\n", (unsigned long long)dropped_in_all);
  return verdict("dropping");
}
