/* wrong.h - the calls with one mistake each, to test the tests: built with -DWRONG=N, N from 1 to WRONG_CALLS, calls.c, forms.c, window.c,
 * rom.c, part.c, dropping.c or garbage.c must fail. kit/check tries each. Read by tests.h; after it the tests' calls are the wrong ones. */
#ifndef WRONG_H
#define WRONG_H
#define WRONG_CALLS 97

/* What was lent, before a call. */
static uint8_t wrong_block[IBZ_BLOCK_LENGTH], wrong_memory[65536], wrong_journal[65536], wrong_target[65536];

/* The calls that a mistake of both manners is put upon. */
typedef struct ibz_step_answer step_call(uint8_t *, size_t, uint32_t, uint32_t, uint8_t *, size_t, const uint8_t *, size_t, uint32_t, uint8_t,
                                         uint8_t *, size_t, size_t);
typedef struct ibz_run_answer run_call(uint8_t *, size_t, uint32_t, uint32_t, uint8_t *, size_t, const uint8_t *, size_t, uint32_t, uint32_t,
                                       uint8_t *, size_t, size_t);
typedef struct ibz_form_answer form_call(const uint8_t *, size_t, uint8_t *, size_t);

/* The arguments that most calls have. */
#define LENT \
  uint8_t *block, size_t block_length, uint32_t lo, uint32_t hi, uint8_t *memory, size_t memory_length, const uint8_t *rom, size_t rom_length
#define GIVEN block, block_length, lo, hi, memory, memory_length, rom, rom_length

/* What a call may be lent. */
static inline int wrong_rom(size_t memory_length, size_t rom_length) {
  return rom_length % 2 != 0 || rom_length > IBZ_ROM_MOST || (rom_length > 0 && memory_length > IBZ_MEMORY_MOST_BESIDE_ROM);
}

static inline uint32_t wrong_end(size_t memory_length, size_t rom_length) {
  return rom_length == 0 ? (uint32_t)memory_length : IBZ_ROM_START + (uint32_t)rom_length;
}

static inline int wrong_window(uint32_t lo, uint32_t hi, size_t memory_length, size_t rom_length) {
  return lo > hi || hi > wrong_end(memory_length, rom_length);
}

/* A mistake that leaves the ROM out, of calls with a good ROM and window: the window ends with memory. */
static inline void wrong_left_out(uint32_t *lo, uint32_t *hi, size_t memory_length, size_t *rom_length) {
  if (wrong_rom(memory_length, *rom_length) || wrong_window(*lo, *hi, memory_length, *rom_length)) return;
  *rom_length = 0;
  if (*hi > memory_length) *hi = (uint32_t)memory_length;
  if (*lo > *hi) *lo = *hi;
}

static inline struct ibz_reset_answer wrong_reset(uint8_t *block, size_t block_length, const uint8_t *memory, size_t memory_length,
                                                  const uint8_t *rom, size_t rom_length) {
  const int none = wrong_rom(memory_length, rom_length);
  struct ibz_reset_answer a = ibz_reset(block, block_length, memory, memory_length, rom, WRONG == 66 && none ? 0 : rom_length); /* 12 is not asked */
  if (WRONG == 1 && a.number == IBZ_NO_BLOCK) a.number = IBZ_BAD_MEMORY; /* 1 before 9 */
  if (WRONG == 2 && a.number == IBZ_BAD_MEMORY) ibz_set(block, IBZ_MODE, IBZ_MODE_RUNNING); /* refused, and the machine runs */
  if (WRONG == 34) a.hi = (uint32_t)memory_length; /* a window where it is refused */
  if (WRONG == 67 && a.number == IBZ_DONE) a.hi = wrong_end(memory_length, rom_length); /* a window over the ROM too */
  if (WRONG == 68 && a.number == IBZ_BAD_ROM) ibz_set(block, IBZ_MODE, IBZ_MODE_RUNNING);
  return a;
}

static inline struct ibz_step_answer wrong_step_by(step_call *call, LENT, uint32_t level, uint8_t vector, uint8_t *journal,
                                                   size_t journal_length, size_t mark) {
  const int none = wrong_rom(memory_length, rom_length), bad = wrong_window(lo, hi, memory_length, rom_length);
  const uint32_t end = wrong_end(memory_length, rom_length);
  struct ibz_fault f;
  if (WRONG == 3) level &= 0xFFu; /* the level is cut */
  if (WRONG == 4) vector = 0;     /* the vector is dropped */
  if (WRONG == 35 && bad) lo = 0, hi = end;                                 /* 10 is not asked */
  if (WRONG == 36 && !bad) lo = 0, hi = end;                                /* the window is forgotten */
  if (WRONG == 37 && !bad && hi < end) hi++;                                /* it is a byte longer at its end */
  if (WRONG == 38 && !bad && lo > 0) lo--;                                  /* or at its start */
  if (WRONG == 39 && !bad) lo &= ~1u, hi = hi == end ? hi : (hi + 1) & ~1u; /* it goes by words */
  if (WRONG == 69) wrong_left_out(&lo, &hi, memory_length, &rom_length);    /* the ROM is forgotten */
  if (WRONG == 70 && !none && !bad && rom_length > 2 && hi <= end - 2) rom_length -= 2; /* its last word is */
  if (WRONG == 71 && none) rom_length = hi > memory_length ? 2 : 0;         /* 12 is not asked */
  if (WRONG == 72 && !bad && rom_length % 2 != 0) rom_length--;             /* not of an odd length */
  if (WRONG == 73 && rom_length > 0 && memory_length > IBZ_MEMORY_MOST_BESIDE_ROM) rom_length = 0; /* nor of memory beside it */
  if (WRONG == 74 && rom_length > 0 && !none && hi > memory_length) hi = lo > 0 ? lo - 1 : 0xFFFFFFFFu; /* 10 by memory's end */
  if (WRONG == 75 && rom_length > 0 && !none && lo <= hi && hi > end && hi <= IBZ_ROM_START + IBZ_ROM_MOST) hi = end; /* or by the longest ROM's */
  struct ibz_step_answer a = call(GIVEN, level, vector, journal, journal_length, mark);
  if (WRONG == 5 && a.number != IBZ_DONE && block_length == IBZ_BLOCK_LENGTH) block[0] ^= 1; /* a refusal alters the block */
  if (WRONG == 6 && a.number == IBZ_DONE && a.mark < journal_length) journal[a.mark] ^= 1;   /* a byte past the record */
  if (WRONG == 7 && a.number == IBZ_DONE) a.mark++;
  if (WRONG == 8) a.event = IBZ_EVENT_NONE;
  if (WRONG == 9 && a.number == IBZ_DONE) memory[memory_length - 1] ^= 1; /* a byte of memory that no record has */
  if (WRONG == 17 && a.number == IBZ_DONE) a.clocks++;
  if (WRONG == 18 && a.number != IBZ_DONE) a.clocks = 4;                              /* a refusal takes time */
  if (WRONG == 40 && a.number == IBZ_BAD_STATE && bad) a.number = IBZ_BAD_WINDOW;     /* 10 before 2 */
  if (WRONG == 41 && a.number == IBZ_BAD_WINDOW && level > 7) a.number = IBZ_BAD_REQUEST; /* 3 before 10 */
  if (WRONG == 76 && a.number == IBZ_BAD_MEMORY && none) a.number = IBZ_BAD_ROM;      /* 12 before 1 */
  if (WRONG == 77 && a.number == IBZ_BAD_ROM && ibz_get(block, IBZ_MODE) > 2) a.number = IBZ_BAD_STATE; /* 2 before 12 */
  if (WRONG == 78 && a.number == IBZ_DONE && rom_length > 0) { /* a byte of the ROM is written, as it is */
    volatile uint8_t *const there = (uint8_t *)rom;
    *there = *there;
  }
  if (WRONG == 79 && a.number == IBZ_DONE && rom_length > 0) { /* a byte past the ROM is read */
    const volatile uint8_t *past = rom + rom_length;
    (void)*past;
  }
  if (WRONG == 80 && a.event == 3 && ibz_get_fault(block, memory, memory_length, &f) && f.address >= IBZ_ROM_START)
    memory[(ibz_get(block, IBZ_SSP) & 0xFFFFFFu) + 1] |= 16; /* a write to the ROM is told as a read */
  return a;
}

static inline struct ibz_run_answer wrong_run_by(run_call *call, step_call *step, LENT, uint32_t budget, uint32_t stop, uint8_t *journal,
                                                 size_t journal_length, size_t mark) {
  const uint32_t end = wrong_end(memory_length, rom_length);
  if (WRONG == 42 && lo <= hi && hi <= end) lo = 0, hi = end;            /* the window is forgotten */
  if (WRONG == 81) wrong_left_out(&lo, &hi, memory_length, &rom_length); /* the ROM is */
  struct ibz_run_answer a = call(GIVEN, budget, stop, journal, journal_length, mark);
  if (WRONG == 10 && a.number == IBZ_DONE) a.steps = budget; /* the count is invented */
  if (WRONG == 11 && a.number == IBZ_DONE) a.reason = IBZ_REASON_BUDGET;
  if (WRONG == 17 && a.number == IBZ_DONE) a.clocks += a.steps; /* as its steps */
  if (WRONG == 19 && a.steps > 0) { /* its last step is not added */
    const size_t before = ibz_undo(GIVEN, journal, journal_length, a.mark).mark;
    a.clocks -= step(GIVEN, 0, 0, journal, journal_length, before).clocks;
  }
  if (WRONG == 20 && a.number != IBZ_DONE) a.clocks = 4;
  return a;
}

/* The manners' own mistakes: room that is made. */
static inline struct ibz_step_answer wrong_step(LENT, uint32_t level, uint8_t vector, uint8_t *journal, size_t journal_length, size_t mark) {
  const int looks = journal_length <= sizeof wrong_journal && journal_length >= IBZ_RECORD_MOST;
  if (looks) memcpy(wrong_journal, journal, journal_length);
  struct ibz_step_answer a = wrong_step_by(WRONG == 21 ? ibz_step_keeping : ibz_step, /* the wrong manner */
                                           GIVEN, level, vector, journal, journal_length, mark);
  if (WRONG == 22) a.moved = 0;
  if (WRONG == 23) a.dropped = 0;
  if (WRONG == 24 && a.dropped != 0) memset(journal + a.mark, 0, journal_length - a.mark); /* bytes that mean nothing are cleared */
  if (WRONG == 25 && a.dropped != 0 && looks && a.mark < mark) /* what was above the mark goes down too */
    memcpy(journal + a.mark, wrong_journal + mark, journal_length - mark);
  if (WRONG == 26 && a.number == IBZ_BAD_RECORD) a.number = IBZ_JOURNAL_FULL;
  if (WRONG == 27 && a.number == IBZ_BAD_RECORD && mark > 0) journal[0] ^= 1; /* refused, and a byte of the journal is altered */
  if (WRONG == 28 && a.number == IBZ_DONE && a.dropped == 0) a.moved = a.mark; /* moved where nothing was dropped */
  return a;
}

static inline struct ibz_run_answer wrong_run(LENT, uint32_t budget, uint32_t stop, uint8_t *journal, size_t journal_length, size_t mark) {
  struct ibz_run_answer a = wrong_run_by(ibz_run, ibz_step, GIVEN, budget, stop, journal, journal_length, mark);
  if (WRONG == 29 && a.reason == IBZ_REASON_RECORD && ibz_get(block, IBZ_PC) == stop) a.reason = IBZ_REASON_ADDRESS; /* 5 before 6 */
  if (WRONG == 30 && a.dropped != 0) a.dropped--;
  if (WRONG == 31) a.moved &= 0xFFu;
  return a;
}

static inline struct ibz_step_answer wrong_step_keeping(LENT, uint32_t level, uint8_t vector, uint8_t *journal, size_t journal_length,
                                                        size_t mark) {
  return wrong_step_by(WRONG == 32 ? ibz_step : ibz_step_keeping, GIVEN, level, vector, journal, journal_length, mark);
}

static inline struct ibz_run_answer wrong_run_keeping(LENT, uint32_t budget, uint32_t stop, uint8_t *journal, size_t journal_length,
                                                      size_t mark) {
  if (WRONG == 33 && budget > 5000 && budget <= IBZ_BUDGET_MOST) budget = 5000; /* else it would be long */
  return wrong_run_by(WRONG == 33 ? ibz_run : ibz_run_keeping, ibz_step_keeping, GIVEN, budget, stop, journal, journal_length, mark);
}

static inline struct ibz_undo_answer wrong_undo(LENT, const uint8_t *journal, size_t journal_length, size_t mark) {
  const int keeps = block_length == IBZ_BLOCK_LENGTH && memory_length <= sizeof wrong_memory;
  if (keeps) memcpy(wrong_block, block, sizeof wrong_block), memcpy(wrong_memory, memory, memory_length);
  if (WRONG == 43) lo = 0, hi = (uint32_t)memory_length; /* 10 is not asked */
  if (WRONG == 82) rom_length = 0;                       /* the ROM is not looked at */
  if (WRONG == 83 && wrong_rom(memory_length, rom_length)) rom_length = 0; /* 12 is not asked */
  struct ibz_undo_answer a = ibz_undo(GIVEN, journal, journal_length, mark);
  if (WRONG == 12 && keeps) memcpy(block, wrong_block, sizeof wrong_block); /* only memory goes back */
  if (WRONG == 13 && keeps) memcpy(memory, wrong_memory, memory_length);    /* only the slots go back */
  if (WRONG == 14 && a.number == IBZ_DONE) a.mark = mark;                   /* the mark stays */
  if (WRONG == 15 && a.number == IBZ_BAD_RECORD) a.number = IBZ_NO_RECORD;
  if (WRONG == 16 && block_length == IBZ_BLOCK_LENGTH) { /* a byte past memory is read */
    const volatile uint8_t *past = memory + memory_length;
    (void)*past;
  }
  if (WRONG == 84 && a.number == IBZ_BAD_RECORD && mark > 6 && rom_length > 0 && journal[mark - 1] == 1 && journal[mark - 7] == 7)
    a.number = IBZ_DONE, a.mark = mark - 7; /* a record of one byte of the ROM is taken for a good one */
  return a;
}

static inline struct ibz_try_answer wrong_try(LENT, uint32_t count, uint8_t *journal, size_t journal_length, size_t mark) {
  if (WRONG == 44 && count > IBZ_BUDGET_MOST) count = IBZ_BUDGET_MOST; /* the count is cut, not refused */
  if (WRONG == 85) wrong_left_out(&lo, &hi, memory_length, &rom_length); /* the ROM is forgotten */
  struct ibz_try_answer a = ibz_try(GIVEN, count, journal, journal_length, mark);
  if (WRONG == 45 && a.end == IBZ_END_EXCEPTION) a.steps--;                                    /* its last step is not counted */
  if (WRONG == 46 && a.end == IBZ_END_SUPERVISED) a.end = IBZ_END_SPENT;                       /* the start is not told */
  if (WRONG == 47 && a.end == IBZ_END_REFUSED && a.steps > 0) a.end = IBZ_END_SPENT, a.number = 0; /* nor a refusal after steps */
  return a;
}

static inline struct ibz_back_answer wrong_take_back(LENT, const uint8_t *journal, size_t journal_length, size_t mark, uint32_t steps,
                                                     uint32_t old_lo, uint32_t old_hi) {
  if (WRONG == 86 && wrong_rom(memory_length, rom_length)) rom_length = 0; /* 12 is not asked */
  struct ibz_back_answer a = ibz_take_back(GIVEN, journal, journal_length, mark, steps, old_lo, old_hi);
  if (WRONG == 48) a.lo = lo, a.hi = hi;         /* the old window does not come back */
  if (WRONG == 49) a.lo = old_lo, a.hi = old_hi; /* or comes back where it is refused too */
  if (WRONG == 50) a.undone = steps;
  return a;
}

static inline uint32_t wrong_part(const uint8_t *memory, size_t memory_length, const uint8_t *rom, size_t rom_length, uint64_t address,
                                  uint64_t length, struct ibz_slice *part) {
  const uint64_t place = address - IBZ_ROM_START;
  if (WRONG == 87) address &= 0xFFFFFFu; /* the address is cut */
  uint32_t number = ibz_part(memory, memory_length, rom, rom_length, address, length, part);
  const int judged = number == IBZ_DONE || number == IBZ_NO_PART;
  if (WRONG == 88 && judged && address >= IBZ_ROM_START && place <= rom_length && length <= rom_length - place) /* the ROM before memory */
    number = IBZ_DONE, part->bytes = rom + place, part->length = length;
  if (WRONG == 89 && number == IBZ_NO_PART && address + length <= memory_length) /* a sum that wraps */
    number = IBZ_DONE, part->bytes = memory, part->length = length;
  if (WRONG == 90 && number == IBZ_DONE && length == 0 && (address == memory_length || place == rom_length)) /* none at the end */
    number = IBZ_NO_PART, part->bytes = memory;
  if (WRONG == 91 && number == IBZ_DONE && address >= IBZ_ROM_START && rom_length == 0) /* nor of no ROM */
    number = IBZ_NO_PART, part->bytes = memory, part->length = 0;
  if (WRONG == 92 && number != IBZ_DONE) part->length = length;  /* refused, and not empty */
  if (WRONG == 93 && number != IBZ_DONE) part->bytes = rom;      /* nor at memory's start */
  if (WRONG == 94 && number == IBZ_BAD_ROM) number = IBZ_DONE, part->bytes = memory + address, part->length = length; /* 12 is not asked */
  if (WRONG == 95 && number == IBZ_BAD_ROM && address > 0x1000000) number = IBZ_NO_PART; /* or after 13 */
  if (WRONG == 96 && number == IBZ_DONE && length > 1) part->length = length - 1;
  if (WRONG == 97 && number == IBZ_DONE && address < memory_length && length <= sizeof wrong_memory) { /* a copy, and not the very part */
    memcpy(wrong_memory, part->bytes, length);
    part->bytes = wrong_memory;
  }
  return number;
}

/* Where the old bytes of the last run of form 2 stand, if there are two or more and each is below 128: their count, else 0. */
static inline size_t wrong_run_of(const uint8_t *two, size_t length, size_t *from) {
  if (length < 6 || two[length - 1] == 0) return 0;
  const size_t n = two[length - 3]; /* below the counts of runs and of slots */
  *from = length - 4;
  while (*from > 0 && two[*from] >= 128) --*from; /* its first address */
  if (n < 2 || *from < n) return 0;
  for (size_t i = 0; i < n; i++)
    if (two[--*from] >= 128) return 0;
  return n;
}

/* A conversion that makes what it made undone, and is refused. */
static inline struct ibz_form_answer wrong_refusal(uint32_t number, uint8_t *target, size_t length) {
  const struct ibz_form_answer a = {number, 0};
  memcpy(target, wrong_target, length);
  return a;
}

static inline struct ibz_form_answer wrong_form(form_call *call, const uint8_t *journal, size_t journal_length, uint8_t *target,
                                                size_t target_length) {
  static uint8_t room[5 * sizeof wrong_journal];
  const int looks = target_length > 0 && target_length <= sizeof wrong_target && journal_length > 0 && journal_length <= sizeof wrong_journal;
  if (looks) memcpy(wrong_target, target, target_length);
  struct ibz_form_answer a = call(journal, journal_length, target, target_length);
  if (WRONG == 51 && a.number == IBZ_DONE) a.length++;
  if (WRONG == 52 && a.number == IBZ_BAD_RECORD && target_length < journal_length) a.number = IBZ_TARGET_SHORT; /* 11 before 8 */
  if (WRONG == 53 && a.number == IBZ_BAD_RECORD && target_length > 0) target[0] ^= 1; /* refused, and the target is altered */
  if (WRONG == 54 && a.number == IBZ_TARGET_SHORT && looks) { /* refused, and as much is written as finds room */
    call(journal, journal_length, room, sizeof room);
    memcpy(target, room, target_length);
  }
  if (WRONG == 55 && a.number == IBZ_TARGET_SHORT && looks) a.length = call(journal, journal_length, room, sizeof room).length;
  if (WRONG == 56 && a.number == IBZ_DONE && a.length < target_length) target[a.length] ^= 1; /* a byte past the answer */
  if (WRONG == 57 && a.number == IBZ_DONE && a.length == target_length && looks) /* what just finds room is refused */
    return wrong_refusal(IBZ_TARGET_SHORT, target, target_length);
  if (WRONG == 58 && journal_length == 0) a.number = IBZ_BAD_RECORD; /* an empty journal is refused */
  if (WRONG == 59 && a.number == IBZ_BAD_RECORD) /* the oldest bytes that are no record are left out */
    for (size_t cut = 1; cut < journal_length && cut < 64 && a.number == IBZ_BAD_RECORD; cut++)
      a = call(journal + cut, journal_length - cut, target, target_length);
  if (WRONG == 60 && journal_length > 0) { /* a byte before the journal is read */
    const volatile size_t one = 1; /* else a compiler may see it, and say so */
    const volatile uint8_t *before = journal - one;
    (void)*before;
  }
  return a;
}

static inline struct ibz_form_answer wrong_to_form_two(const uint8_t *journal, size_t journal_length, uint8_t *target,
                                                       size_t target_length) {
  struct ibz_form_answer a = wrong_form(ibz_to_form_two, journal, journal_length, target, target_length);
  size_t from, n;
  if (WRONG == 61 && a.number == IBZ_DONE && target_length >= journal_length) { /* form 1 as it is */
    memcpy(target, journal, journal_length);
    a.length = journal_length;
  }
  if (WRONG == 62 && a.number == IBZ_DONE && (n = wrong_run_of(target, a.length, &from)) > 0) { /* old bytes in another order */
    const uint8_t first = target[from];
    target[from] = target[from + n - 1];
    target[from + n - 1] = first;
  }
  if (WRONG == 63 && a.number == IBZ_DONE && target_length <= sizeof wrong_target) /* the last address is taken for one too many */
    for (size_t i = 0; i + 4 <= journal_length; i++)
      if (memcmp(journal + i, "\x07\xFF\xFF\xFF", 4) == 0) return wrong_refusal(IBZ_BAD_RECORD, target, target_length);
  return a;
}

static inline struct ibz_form_answer wrong_to_form_one(const uint8_t *journal, size_t journal_length, uint8_t *target,
                                                       size_t target_length) {
  struct ibz_form_answer a = wrong_form(ibz_to_form_one, journal, journal_length, target, target_length);
  size_t from;
  if (WRONG == 64 && a.number == IBZ_DONE && target_length <= sizeof wrong_target && wrong_run_of(journal, journal_length, &from) > 0)
    return wrong_refusal(IBZ_BAD_RECORD, target, target_length); /* runs of one byte only */
  if (WRONG == 65 && a.number == IBZ_BAD_RECORD && journal_length >= 8 && journal_length <= sizeof wrong_journal) { /* runs that touch */
    memcpy(wrong_journal, journal, journal_length);
    wrong_journal[journal_length - 4]++; /* the last one at the next address */
    a = ibz_to_form_one(wrong_journal, journal_length, target, target_length);
  }
  return a;
}

#define ibz_reset wrong_reset
#define ibz_step wrong_step
#define ibz_run wrong_run
#define ibz_step_keeping wrong_step_keeping
#define ibz_run_keeping wrong_run_keeping
#define ibz_undo wrong_undo
#define ibz_try wrong_try
#define ibz_take_back wrong_take_back
#define ibz_part wrong_part
#define ibz_to_form_two wrong_to_form_two
#define ibz_to_form_one wrong_to_form_one
#endif
