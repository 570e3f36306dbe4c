/* clocks.c - the clocks of steps and runs, by hand: for each rule some steps whose clocks follow from Appendix D of the manual, and each
 * of them again with its trace; runs against their steps. */
#include "tests.h"

enum { MEMORY = 65536, JOURNAL = 4096, BLOCK = IBZ_BLOCK_LENGTH, USER = 0, TRACE = 0x8000, SUPERVISOR = 0x2700 };

static uint8_t block[BLOCK], memory[MEMORY], journal[JOURNAL];

static void put(uint32_t at, unsigned word) {
  memory[at] = (uint8_t)(word >> 8);
  memory[at + 1] = (uint8_t)word;
}

static struct ibz_step_answer step(uint32_t level) {
  return ibz_step(block, BLOCK, 0, MEMORY, memory, MEMORY, IBZ_NO_ROM, level, 64, journal, JOURNAL, 0);
}

/* What the words below count without a trace, and with one: 0 if the step is not traced. */
struct timed {
  const char *what;
  uint16_t words[5];
  uint32_t d0, d1, clocks, traced;
  unsigned sr;
};

/* A0 is 0x300, where the word 0x0001 stands; SSP is 0x1000, USP 0x2000; every vector is 0. */
static const struct timed steps[] = {
    {"MOVEQ #1,D0", {0x7001}, 0, 0, 4, 38, USER},
    {"MOVE.L (A0),$300.L", {0x23D0, 0, 0x300}, 0, 0, 28, 62, USER},
    {"MOVE.L $300.L,$304.L", {0x23F9, 0, 0x300, 0, 0x304}, 0, 0, 36, 70, USER},
    {"MOVE.W D0,-(A0)", {0x3100}, 0, 0, 8, 42, USER},
    {"ADD.L D1,D0: 8, not 6", {0xD081}, 0, 0, 8, 42, USER},
    {"ADD.L (A0),D0", {0xD090}, 0, 0, 14, 48, USER},
    {"ADDI.L #1,$300.L", {0x06B9, 0, 1, 0, 0x300}, 0, 0, 36, 70, USER},
    {"NBCD D0", {0x4800}, 0, 0, 6, 40, USER},
    {"BTST D0,#1", {0x013C, 1}, 0, 0, 8, 42, USER},
    {"BCLR D0,D1: a maximum", {0x0181}, 0, 0, 10, 44, USER},
    {"ADDX.L -(A0),-(A0)", {0xD188}, 0, 0, 30, 64, USER},
    {"DIVS $300.L,D0: a maximum, and the largest", {0x81F9, 0, 0x300}, 7, 0, 170, IBZ_CLOCKS_MOST, USER},
    {"DIVU (A0),D0", {0x80D0}, 7, 0, 144, 178, USER},
    {"MULU #$5555,D0: eight ones", {0xC0FC, 0x5555}, 7, 0, 58, 92, USER},
    {"MULS #$5555,D0: sixteen changes", {0xC1FC, 0x5555}, 7, 0, 74, 108, USER},
    {"LSL.B #8,D0", {0xE108}, 1, 0, 22, 56, USER},
    {"LSL.L D1,D0 by 63", {0xE3A8}, 1, 63, 134, 168, USER},
    {"LSL.L D1,D0 by 64: by 0", {0xE3A8}, 1, 64, 8, 42, USER},
    {"ASL.W (A0)", {0xE1D0}, 0, 0, 12, 46, USER},
    {"MOVEM.L all,-(A0)", {0x48E0, 0xFFFF}, 0, 0, 136, 170, USER},
    {"MOVEM.W D0-D2,-(A0)", {0x48A0, 0xE000}, 0, 0, 20, 54, USER},
    {"MOVEM.L $300.L,D0/A1", {0x4CF9, 0x0201, 0, 0x300}, 0, 0, 36, 70, USER},
    {"MOVEP.L D0,0(A0)", {0x01C8, 0}, 0, 0, 24, 58, USER},
    {"BRA", {0x60FE}, 0, 0, 10, 44, USER},
    {"BEQ.B, not taken", {0x67FE}, 0, 0, 8, 42, USER},
    {"BEQ.W, not taken", {0x6700, 4}, 0, 0, 12, 46, USER},
    {"BSR", {0x6102}, 0, 0, 18, 52, USER},
    {"DBT", {0x50C8, 4}, 0, 0, 12, 46, USER},
    {"DBF D0, taken", {0x51C8, 4}, 1, 0, 10, 44, USER},
    {"DBF D0, run out", {0x51C8, 4}, 0, 0, 14, 48, USER},
    {"ST D0", {0x50C0}, 0, 0, 6, 40, USER},
    {"SF D0", {0x51C0}, 0, 0, 4, 38, USER},
    {"JMP 4(PC,D0.W)", {0x4EFB, 4}, 0, 0, 14, 48, USER},
    {"STOP #$2700", {0x4E72, 0x2700}, 0, 0, 4, 38, SUPERVISOR},
    {"RESET", {0x4E70}, 0, 0, 132, 166, SUPERVISOR},
    {"MOVE #$2700,SR", {0x46FC, 0x2700}, 0, 0, 16, 50, SUPERVISOR},
    {"CHK (A0),D0: no trap", {0x4190}, 1, 0, 14, 48, USER},
    {"CHK (A0),D0: a trap", {0x4190}, 2, 0, 48, 82, USER},
    {"DIVU by 0, its operand not counted", {0x80F8, 0x310}, 7, 0, 42, 76, USER},
    {"TRAP #0", {0x4E40}, 0, 0, 38, 72, USER},
    {"TRAPV, no trap", {0x4E76}, 0, 0, 4, 38, USER},
    {"TRAPV, a trap", {0x4E76}, 0, 0, 34, 68, 2},
    {"ILLEGAL", {0x4AFC}, 0, 0, 34, 0, USER},
    {"line 1010", {0xA000}, 0, 0, 34, 0, USER},
    {"line 1111", {0xF000}, 0, 0, 34, 0, USER},
    {"RESET in user state", {0x4E70}, 0, 0, 34, 0, USER},
    {"MOVE.W $301.W,D0: an address error", {0x3038, 0x301}, 0, 0, 50, 0, USER},
    {"MOVE.W $FF0000,D0: a bus error", {0x3039, 0xFF, 0}, 0, 0, 50, 0, USER}};

static void set_up(const struct timed *t, unsigned sr, uint32_t ssp) {
  memset(block, 0, sizeof block);
  memset(memory, 0, sizeof memory);
  for (unsigned i = 0; i < 5; i++) put(0x200 + 2 * i, t->words[i]);
  put(0x300, 1);
  ibz_set(block, IBZ_D0, t->d0), ibz_set(block, IBZ_D1, t->d1), ibz_set(block, IBZ_A0, 0x300);
  ibz_set(block, IBZ_USP, 0x2000), ibz_set(block, IBZ_SSP, ssp), ibz_set(block, IBZ_PC, 0x200), ibz_set(block, IBZ_SR, sr);
}

static int counts(uint32_t clocks, const struct timed *t, unsigned sr, uint32_t ssp) {
  set_up(t, sr, ssp);
  const struct ibz_step_answer a = step(0);
  if (a.number == 0 && a.clocks == clocks) return 1;
  printf("%s, SR %04X: %u clocks, not %u\n", t->what, sr, (unsigned)a.clocks, (unsigned)clocks);
  return 0;
}

static void each(void) {
  for (const struct timed *t = steps; t < steps + sizeof steps / sizeof *steps; t++) {
    EXPECT(counts(t->clocks, t, t->sr, 0x1000));
    EXPECT(counts(t->traced != 0 ? t->traced : t->clocks, t, t->sr | TRACE, 0x1000));
    /* a run of one step has the same, unless the machine is stopped */
    set_up(t, t->sr, 0x1000);
    const struct ibz_run_answer a = ibz_run(block, BLOCK, 0, MEMORY, memory, MEMORY, IBZ_NO_ROM, 1, 0, journal, JOURNAL, 0);
    EXPECT(a.number == 0 && a.steps == 1 && a.clocks == t->clocks);
  }
}

/* Exceptions whose frames can not be written: they count 0, and what came before them counts. */
static void halts(void) {
  static const struct timed moveq = {"MOVEQ", {0x7001}, 0, 0, 0, 0, 0}, trap = {"TRAP #0", {0x4E40}, 0, 0, 0, 0, 0},
                            illegal = {"ILLEGAL", {0x4AFC}, 0, 0, 0, 0, 0}, odd = {"MOVE.W $301.W,D0", {0x3038, 0x301}, 0, 0, 0, 0, 0};
  EXPECT(counts(0, &illegal, USER, 0x1001) && ibz_get(block, IBZ_MODE) == 2);
  EXPECT(counts(0, &trap, TRACE, 0x1001) && ibz_get(block, IBZ_MODE) == 2);
  EXPECT(counts(0, &odd, USER, 0x1001) && ibz_get(block, IBZ_MODE) == 2);
  EXPECT(counts(4, &moveq, TRACE, 0x1001) && ibz_get(block, IBZ_MODE) == 2);
  EXPECT(counts(38, &trap, TRACE, 6) && ibz_get(block, IBZ_MODE) == 2); /* the trap's frame has room, the trace's has none */
  set_up(&moveq, USER, 0x1001);
  const struct ibz_step_answer a = step(7);
  EXPECT(a.number == 0 && a.event == IBZ_EVENT_HALT && a.clocks == 0);
}

/* A stopped machine, interrupts, and calls that are refused. */
static void others(void) {
  static const struct timed moveq = {"MOVEQ", {0x7001}, 0, 0, 0, 0, 0};
  set_up(&moveq, 0x2300, 0x1000);
  ibz_set(block, IBZ_MODE, IBZ_MODE_STOPPED);
  EXPECT(step(0).clocks == 4 && step(3).clocks == 4);
  const struct ibz_run_answer a = ibz_run(block, BLOCK, 0, MEMORY, memory, MEMORY, IBZ_NO_ROM, 9, 0, journal, JOURNAL, 0);
  EXPECT(a.reason == IBZ_REASON_STOPPED && a.steps == 0 && a.clocks == 0);
  EXPECT(step(4).clocks == 44 && ibz_get(block, IBZ_MODE) == 0);
  set_up(&moveq, TRACE, 0x1000); /* an interrupt is not traced */
  EXPECT(step(1).clocks == 44);
  set_up(&moveq, 0x2700, 0x1000); /* one that is not taken: the instruction */
  EXPECT(step(6).clocks == 4);
  const struct ibz_step_answer s = ibz_step(block, BLOCK - 1, 0, MEMORY, memory, MEMORY, IBZ_NO_ROM, 0, 0, journal, JOURNAL, 0);
  EXPECT(s.number == IBZ_NO_BLOCK && s.clocks == 0 && step(8).number == IBZ_BAD_REQUEST && step(8).clocks == 0);
  const struct ibz_run_answer r = ibz_run(block, BLOCK - 1, 0, MEMORY, memory, MEMORY, IBZ_NO_ROM, 1, 0, journal, JOURNAL, 0);
  EXPECT(r.number == IBZ_NO_BLOCK && r.clocks == 0);
}

/* A run has the sum of its steps: a loop of DIVS and shifts, by any budget. */
static void sums(void) {
  static const struct timed loop = {"loop", {0x81F9, 0, 0x300, 0xE3A8, 0x51C9}, 0x12345, 20, 0, 0, 0}; /* DIVS, LSL.L D1,D0, DBF D1 */
  uint32_t sum = 0, n = 0;
  for (uint32_t budget = 0; budget < 70; budget++) {
    set_up(&loop, USER, 0x1000);
    put(0x20A, 0xFFF6), put(0x20C, 0x4E40); /* after DBF: TRAP #0 to vector 32, which is 0 */
    const struct ibz_run_answer a = ibz_run(block, BLOCK, 0, MEMORY, memory, MEMORY, IBZ_NO_ROM, budget, 0, journal, JOURNAL, 0);
    EXPECT(a.number == 0 && a.steps == n && a.clocks == sum);
    if (a.reason != IBZ_REASON_BUDGET || ibz_get(block, IBZ_PC) == 0) break;
    const struct ibz_step_answer s = ibz_step(block, BLOCK, 0, MEMORY, memory, MEMORY, IBZ_NO_ROM, 0, 0, journal, JOURNAL, a.mark);
    sum += s.clocks, n += s.number == IBZ_DONE;
  }
  uint32_t wanted = 38 - 10 + 14; /* TRAP; the last DBF runs out */
  for (uint32_t d1 = 0; d1 <= 20; d1++) wanted += 170 + 8 + 2 * d1 + 10;
  EXPECT(n == 64 && sum == wanted && ibz_get(block, IBZ_PC) == 0);
}

int main(void) {
  each();
  halts();
  others();
  sums();
  return verdict("clocks");
}
