/* jumps.c - odd targets and odd handlers, by hand: the nine jumps, each in both states and traced, what is not judged, what is judged
 * first, vectors 2 and 3 with an odd address; each step is undone. */
#include "tests.h"

enum { MEMORY = 65536, JOURNAL = 4096, BLOCK = IBZ_BLOCK_LENGTH, USER = 0, SUPERVISOR = 0x2000, TRACE = 0x8000, SSP = 0x1000, USP = 0x2000 };

static uint8_t block[BLOCK], memory[MEMORY], journal[JOURNAL], old_block[BLOCK], old_memory[MEMORY];

static void put(uint32_t at, unsigned word) {
  memory[at] = (uint8_t)(word >> 8);
  memory[at + 1] = (uint8_t)word;
}

static void put_long(uint32_t at, uint32_t value) { put(at, value >> 16), put(at + 2, value & 0xFFFFu); }

/* A jump at 0x200, and its odd target. D0 is 5, A0 0x4321, SSP and USP as above, vector 2 is 0x600, 3 is 0x700, 64 is 0x800; on both
 * stacks stand the words of `stack`. */
struct jump {
  const char *what;
  uint16_t words[2], stack[3];
  unsigned ccr;
  uint32_t target;
};

static const struct jump jumps[] = {
    {"BEQ.B", {0x6701}, {0}, 4, 0x203},
    {"BEQ.W", {0x6700, 0xFFFF}, {0}, 4, 0x201},
    {"BRA.B -1", {0x60FF}, {0}, 0, 0x201},
    {"BRA.W", {0x6000, 0x7FFF}, {0}, 0, 0x8201},
    {"BSR.B", {0x6103}, {0}, 0, 0x205},
    {"BSR.W", {0x6100, 0x0101}, {0}, 0, 0x303},
    {"DBF", {0x51C8, 0x0001}, {0}, 0, 0x203},
    {"DBEQ, Z 0", {0x57C8, 0xFFF1}, {0}, 0, 0x1F3},
    {"JMP (A0)", {0x4ED0}, {0}, 0, 0x4321},
    {"JMP $FF8001.W", {0x4EF8, 0x8001}, {0}, 0, 0xFF8001},
    {"JSR (A0)", {0x4E90}, {0}, 0, 0x4321},
    {"JSR 1(PC)", {0x4EBA, 0x0001}, {0}, 0, 0x203},
    {"RTS", {0x4E75}, {0xAB12, 0x3457}, 0, 0x123457},
    {"RTR", {0x4E77}, {0x001F, 0x0000, 0x0301}, 0, 0x301},
    {"RTE to user state", {0x4E73}, {0x0000, 0x0000, 0x0301}, 0, 0x301},
    {"RTE to a trace", {0x4E73}, {0xA71F, 0x0000, 0x0301}, 0, 0x301}};

static void set_up(const struct jump *j, unsigned sr) {
  memset(block, 0, sizeof block);
  memset(memory, 0, sizeof memory);
  put(0x200, j->words[0]), put(0x202, j->words[1]);
  for (unsigned i = 0; i < 3; i++) put(SSP + 2 * i, j->stack[i]), put(USP + 2 * i, j->stack[i]);
  put_long(8, 0x600), put_long(12, 0x700), put_long(256, 0x800);
  ibz_set(block, IBZ_D0, 5), ibz_set(block, IBZ_A0, 0x4321), ibz_set(block, IBZ_USP, USP), ibz_set(block, IBZ_SSP, SSP);
  ibz_set(block, IBZ_PC, 0x200), ibz_set(block, IBZ_SR, sr | j->ccr);
}

/* One step; what was before it is kept, for the comparisons and for the way back. */
static struct ibz_step_answer step(uint32_t level, uint8_t vector) {
  memcpy(old_block, block, sizeof block);
  memcpy(old_memory, memory, sizeof memory);
  return ibz_step(block, BLOCK, 0, MEMORY, memory, MEMORY, IBZ_NO_ROM, level, vector, journal, JOURNAL, 0);
}

/* Whether undo leads back to what was before the step. */
static int undone(size_t mark) {
  const struct ibz_undo_answer a = ibz_undo(block, BLOCK, 0, MEMORY, memory, MEMORY, IBZ_NO_ROM, journal, JOURNAL, mark);
  return a.number == 0 && a.mark == 0 && memcmp(block, old_block, BLOCK) == 0 && memcmp(memory, old_memory, MEMORY) == 0;
}

/* Whether the step took an address or bus error by itself: nothing but the exception's slots, and nothing but its frame, was written. */
static int blamed(struct ibz_step_answer a, uint32_t vector, uint32_t information, uint32_t address) {
  struct ibz_fault f;
  const uint32_t sr = ibz_get(old_block, IBZ_SR), ssp = ibz_get(old_block, IBZ_SSP), pc = ibz_get(old_block, IBZ_PC);
  int good = a.number == 0 && a.event == vector + 1 && a.clocks == 50 && ibz_get_fault(block, memory, MEMORY, &f);
  good = good && f.information == information && f.address == address && f.sr == sr && f.pc == pc + 2;
  good = good && f.op == ((uint32_t)old_memory[pc] << 8 | old_memory[pc + 1]);
  for (unsigned i = 0; i < IBZ_SSP; i++) good = good && ibz_get(block, i) == ibz_get(old_block, i);
  good = good && ibz_get(block, IBZ_SSP) == ssp - 14 && ibz_get(block, IBZ_PC) == vector * 0x100 + 0x400;
  good = good && ibz_get(block, IBZ_SR) == ((sr & 0x5FFFu) | 0x2000u) && ibz_get(block, IBZ_MODE) == 0;
  good = good && memcmp(memory, old_memory, ssp - 14) == 0 && memcmp(memory + ssp, old_memory + ssp, MEMORY - ssp) == 0;
  return undone(a.mark) && good;
}

/* Whether the step halted the machine, and changed nothing else: its record is slot 19, which was 0, alone. */
static int halted(struct ibz_step_answer a) {
  const int good = a.number == 0 && a.event == IBZ_EVENT_HALT && a.clocks == 0 && a.mark == 4 && memcmp(journal, "\x13\0\1", 4) == 0
                && ibz_get(block, IBZ_MODE) == 2 && memcmp(memory, old_memory, MEMORY) == 0;
  return undone(a.mark) && good;
}

/* Each of the nine, in both states (RTE in one), without T and with it: no trace follows. */
static void each(void) {
  for (const struct jump *j = jumps; j < jumps + sizeof jumps / sizeof *jumps; j++)
    for (unsigned i = 0; i < 4; i++) {
      const unsigned state = i % 2 != 0 || j->words[0] == 0x4E73 ? SUPERVISOR : USER;
      set_up(j, state | (i / 2 != 0 ? TRACE : 0));
      const int good = blamed(step(0, 0), 3, state != 0 ? 0x16 : 0x12, j->target);
      if (!good) printf("%s, SR %04X\n", j->what, state);
      EXPECT(good);
      /* vector 3 odd: the machine halts */
      set_up(j, state | (i / 2 != 0 ? TRACE : 0)), put(14, 0x0701);
      EXPECT(halted(step(0, 0)));
    }
}

/* Jumps that are not made, and even targets that no word can be read at: the step completes. */
static void completes(void) {
  static const struct jump bne = {"BNE", {0x6601}, {0}, 4, 0}, dbf = {"DBF", {0x51C8, 1}, {0}, 0, 0}, dbt = {"DBT", {0x50C8, 1}, {0}, 0, 0},
                           jmp = {"JMP (A0)", {0x4ED0}, {0}, 0, 0};
  set_up(&bne, SUPERVISOR);
  struct ibz_step_answer a = step(0, 0);
  EXPECT(a.event == 0 && ibz_get(block, IBZ_PC) == 0x202 && undone(a.mark));
  set_up(&dbt, SUPERVISOR);
  a = step(0, 0);
  EXPECT(a.event == 0 && ibz_get(block, IBZ_PC) == 0x204 && ibz_get(block, IBZ_D0) == 5 && undone(a.mark));
  set_up(&dbf, SUPERVISOR), ibz_set(block, IBZ_D0, 0x70000);
  a = step(0, 0);
  EXPECT(a.event == 0 && ibz_get(block, IBZ_PC) == 0x204 && ibz_get(block, IBZ_D0) == 0x7FFFF && undone(a.mark));
  set_up(&jmp, SUPERVISOR), ibz_set(block, IBZ_A0, 0xABF00000);
  a = step(0, 0);
  EXPECT(a.event == 0 && ibz_get(block, IBZ_PC) == 0xABF00000);
  a = step(0, 0); /* and the next one faults: a bus error, the saved PC its address plus 2 */
  struct ibz_fault f;
  EXPECT(a.event == 3 && ibz_get_fault(block, memory, MEMORY, &f) && f.address == 0xF00000 && f.pc == 0xABF00002 && f.information == 0x16);
  set_up(&jmp, SUPERVISOR), ibz_set(block, IBZ_PC, 0x201); /* a state handed in with odd PC faults in its step */
  a = step(0, 0);
  EXPECT(a.event == 4 && ibz_get_fault(block, memory, MEMORY, &f) && f.address == 0x201 && f.pc == 0x203);
}

/* Of two faults the first: what is read before the target is judged, and the push, for which room is asked after. */
static void first(void) {
  static const struct jump jsr = {"JSR (A0)", {0x4E90}, {0}, 0, 0}, bsr = {"BSR", {0x6103}, {0}, 0, 0}, rts = {"RTS", {0x4E75}, {0, 0x301}, 0, 0},
                           rtr = {"RTR", {0x4E77}, {0, 0, 0x301}, 0, 0};
  set_up(&jsr, USER), ibz_set(block, IBZ_USP, 0x2001); /* the push would fail too */
  EXPECT(blamed(step(0, 0), 3, 0x12, 0x4321));
  set_up(&bsr, USER), ibz_set(block, IBZ_USP, 0xFF0000);
  EXPECT(blamed(step(0, 0), 3, 0x12, 0x205));
  set_up(&jsr, USER), ibz_set(block, IBZ_USP, 0x2001), ibz_set(block, IBZ_A0, 0x4320); /* an even target: the push fails */
  EXPECT(blamed(step(0, 0), 3, 0x01, 0x1FFD));
  set_up(&rts, USER), ibz_set(block, IBZ_USP, 0x2001); /* the stack can not be read */
  EXPECT(blamed(step(0, 0), 3, 0x11, 0x2001));
  set_up(&rtr, USER), ibz_set(block, IBZ_USP, MEMORY - 4); /* the word and half of the long can */
  EXPECT(blamed(step(0, 0), 2, 0x11, MEMORY));
}

/* Odd addresses in vectors. */
static void handlers(void) {
  static const struct jump jmp = {"JMP (A0)", {0x4ED0}, {0}, 0, 0}, move = {"MOVE.W $301.W,D0", {0x3038, 0x301}, {0}, 0, 0},
                           outside = {"MOVE.W $8000.W,D0", {0x3038, 0x8000}, {0}, 0, 0}, trap = {"TRAP #0", {0x4E40}, {0}, 0, 0};
  set_up(&move, USER), put(14, 0x0701); /* an operand's address error */
  EXPECT(halted(step(0, 0)));
  set_up(&outside, USER), put(10, 0x0601); /* a bus error, $FF8000 */
  EXPECT(halted(step(0, 0)));
  set_up(&outside, USER), put(14, 0x0701); /* vector 3 does not matter to it */
  EXPECT(blamed(step(0, 0), 2, 0x11, 0xFF8000));
  for (unsigned v = 2; v <= 3; v++) { /* an interrupt that names one of the two */
    set_up(&jmp, SUPERVISOR), put(4 * v + 2, 0x0901);
    EXPECT(halted(step(7, (uint8_t)v)));
    set_up(&jmp, SUPERVISOR);
    const struct ibz_step_answer a = step(7, (uint8_t)v);
    EXPECT(a.event == v + 1 && ibz_get(block, IBZ_SSP) == SSP - 6 && ibz_get(block, IBZ_PC) == v * 0x100 + 0x400 && undone(a.mark));
  }
  set_up(&jmp, SUPERVISOR), put(258, 0x0801); /* other odd handlers are gone to: an interrupt's, a trap's */
  struct ibz_step_answer a = step(7, 64);
  EXPECT(a.event == 65 && ibz_get(block, IBZ_PC) == 0x801 && ibz_get(block, IBZ_MODE) == 0 && undone(a.mark));
  set_up(&trap, USER), put(130, 0x0901);
  a = step(0, 0);
  EXPECT(a.event == 33 && ibz_get(block, IBZ_PC) == 0x901 && undone(a.mark));
  /* the frame lies over vector 3, which is then the information word and the upper half of the address */
  set_up(&jmp, SUPERVISOR), ibz_set(block, IBZ_SSP, 0x1A), ibz_set(block, IBZ_A0, 0x10301);
  EXPECT(halted(step(0, 0)));
  set_up(&jmp, SUPERVISOR), ibz_set(block, IBZ_SSP, 0x1A), ibz_set(block, IBZ_A0, 0x20301), put(14, 0x0701);
  a = step(0, 0);
  EXPECT(a.event == 4 && ibz_get(block, IBZ_PC) == 0x160002 && ibz_get(block, IBZ_SSP) == 0x0C && undone(a.mark));
  /* and an interrupt's over vector 2: SR, and the upper half of PC */
  set_up(&jmp, SUPERVISOR), ibz_set(block, IBZ_SSP, 14), ibz_set(block, IBZ_PC, 0x10200);
  EXPECT(halted(step(7, 2)));
  set_up(&jmp, SUPERVISOR), ibz_set(block, IBZ_SSP, 14), put(10, 0x0601);
  a = step(7, 2);
  EXPECT(a.event == 3 && ibz_get(block, IBZ_PC) == 0x20000000 && ibz_get(block, IBZ_SSP) == 8 && undone(a.mark));
}

/* The helper that reads a frame: none where the stack is odd or ends past memory. */
static void frames(void) {
  static const struct jump jmp = {"JMP (A0)", {0x4ED0}, {0}, 0, 0};
  struct ibz_fault f;
  set_up(&jmp, SUPERVISOR), ibz_set(block, IBZ_SSP, MEMORY - 14);
  EXPECT(ibz_get_fault(block, memory, MEMORY, &f));
  ibz_set(block, IBZ_SSP, MEMORY - 12);
  EXPECT(!ibz_get_fault(block, memory, MEMORY, &f));
  ibz_set(block, IBZ_SSP, SSP + 1);
  EXPECT(!ibz_get_fault(block, memory, MEMORY, &f));
  ibz_set(block, IBZ_SSP, 0xFF000000u + SSP), put(SSP, 0xFFE9);
  EXPECT(ibz_get_fault(block, memory, MEMORY, &f) && f.information == 9);
}

int main(void) {
  each();
  completes();
  first();
  handlers();
  frames();
  return verdict("jumps");
}
