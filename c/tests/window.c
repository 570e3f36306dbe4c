/* window.c - the window and the tryer, by hand: each access at the window's edges, what is not fenced, what is judged first, the frame; the
 * refusal of a window at its edges (calls.c has its order among the others); each end of a try, and the way back from it. All of it twice,
 * on buffers that end where pages that can not be touched begin, and on such that begin where they end. */
#include "tests.h"

enum { MEMORY = 4096, JOURNAL = 2048, BLOCK = IBZ_BLOCK_LENGTH, SUPERVISOR = 0x2000, TRACE = 0x8000 };

/* The window, an instruction in it, and the stacks. */
enum { LO = 0x400, HI = 0x600, CODE = 0x480, USP = 0x500, SSP = 0xF00 };

static uint8_t *block, *memory, *journal, old_block[BLOCK], old_memory[MEMORY], old_journal[JOURNAL];
static uint32_t lo, hi;

static void put(uint32_t at, unsigned word) {
  memory[at] = (uint8_t)(word >> 8);
  memory[at + 1] = (uint8_t)word;
}

static uint32_t word_at(uint32_t at) { return (uint32_t)memory[at] << 8 | memory[at + 1]; }

static void keep(void) {
  memcpy(old_block, block, BLOCK);
  memcpy(old_memory, memory, MEMORY);
  memcpy(old_journal, journal, JOURNAL);
}

static int same_state(void) { return memcmp(block, old_block, BLOCK) == 0 && memcmp(memory, old_memory, MEMORY) == 0; }

static int kept(void) { return same_state() && memcmp(journal, old_journal, JOURNAL) == 0; }

/* Vectors 2 to 64 lead outside the window too. */
static uint32_t handler(uint32_t vector) { return 0x800 + 16 * vector; }

/* Words at PC; D0 is 0x12345678, A0 as given; the bytes of the window, and the 16 on both sides, are 0x5A. */
static void set_up(uint32_t pc, const uint16_t *words, unsigned n, uint32_t a0, unsigned sr) {
  memset(block, 0, BLOCK), memset(memory, 0, MEMORY), memset(journal, 0xEE, JOURNAL);
  memset(memory + LO - 16, 0x5A, HI - LO + 32);
  for (uint32_t v = 2; v <= 64; v++) put(4 * v + 2, handler(v));
  for (unsigned i = 0; i < n; i++) put(pc + 2 * i, words[i]);
  ibz_set(block, IBZ_D0, 0x12345678), ibz_set(block, IBZ_A0, a0), ibz_set(block, IBZ_USP, USP), ibz_set(block, IBZ_SSP, SSP);
  ibz_set(block, IBZ_PC, pc), ibz_set(block, IBZ_SR, sr);
  lo = LO, hi = HI;
  keep();
}

static struct ibz_step_answer step_at(uint32_t level, uint8_t vector, size_t mark) {
  return ibz_step_keeping(block, BLOCK, lo, hi, memory, MEMORY, IBZ_NO_ROM, level, vector, journal, JOURNAL, mark);
}

static struct ibz_step_answer step(void) { return step_at(0, 0, 0); }

static struct ibz_try_answer try_from(uint32_t count, size_t length, size_t mark) {
  return ibz_try(block, BLOCK, lo, hi, memory, MEMORY, IBZ_NO_ROM, count, journal, length, mark);
}

/* Whether undo leads back to what was before, in the window it is given: records do not name one. */
static int undone_in(uint32_t from, uint32_t to, size_t mark) {
  const struct ibz_undo_answer a = ibz_undo(block, BLOCK, from, to, memory, MEMORY, IBZ_NO_ROM, journal, JOURNAL, mark);
  return a.number == 0 && a.mark == 0 && same_state();
}

static int undone(size_t mark) { return undone_in(0, MEMORY, mark); }

/* Whether the step took a bus or address error by itself: nothing but the exception's slots, and nothing but its frame, was written. */
static int blamed(struct ibz_step_answer a, uint32_t vector, uint32_t information, uint32_t address, uint32_t op) {
  struct ibz_fault f;
  const uint32_t sr = ibz_get(old_block, IBZ_SR), ssp = ibz_get(old_block, IBZ_SSP), pc = ibz_get(old_block, IBZ_PC);
  int good = a.number == 0 && a.event == vector + 1 && a.clocks == 50 && ibz_get_fault(block, memory, MEMORY, &f);
  good = good && f.information == information && f.address == address && f.sr == sr && f.pc == pc + 2 && f.op == op;
  for (unsigned i = 0; i < IBZ_SSP; i++) good = good && ibz_get(block, i) == ibz_get(old_block, i);
  good = good && ibz_get(block, IBZ_SSP) == ssp - 14 && ibz_get(block, IBZ_PC) == handler(vector);
  good = good && ibz_get(block, IBZ_SR) == ((sr & 0x5FFFu) | 0x2000u) && ibz_get(block, IBZ_MODE) == 0;
  good = good && memcmp(memory, old_memory, ssp - 14) == 0 && memcmp(memory + ssp, old_memory + ssp, MEMORY - ssp) == 0;
  return undone(a.mark) && good;
}

/* ---- one access each */

/* An instruction at CODE, and A0, or A7 where it is the stack's; the window; what comes of it in user state: the fault's vector, or 0,
 * with information word and address. */
struct access {
  const char *what;
  uint16_t words[3];
  uint32_t a, lo, hi, vector, information, address;
};

#define MOVE_B_READ {0x1210}  /* MOVE.B (A0),D1 */
#define MOVE_B_WRITE {0x1080} /* MOVE.B D0,(A0) */
#define MOVE_W_READ {0x3210}
#define MOVE_W_WRITE {0x3080}
#define MOVE_L_READ {0x2210}
#define MOVE_L_WRITE {0x2080}

static const struct access accesses[] = {
    /* a byte and a word, at both edges */
    {"byte read at lo", MOVE_B_READ, LO, LO, HI, 0, 0, 0},
    {"byte read below lo", MOVE_B_READ, LO - 1, LO, HI, 2, 0x11, LO - 1},
    {"byte read below hi", MOVE_B_READ, HI - 1, LO, HI, 0, 0, 0},
    {"byte read at hi", MOVE_B_READ, HI, LO, HI, 2, 0x11, HI},
    {"byte write at lo", MOVE_B_WRITE, LO, LO, HI, 0, 0, 0},
    {"byte write below lo", MOVE_B_WRITE, LO - 1, LO, HI, 2, 0x01, LO - 1},
    {"byte write below hi", MOVE_B_WRITE, HI - 1, LO, HI, 0, 0, 0},
    {"byte write at hi", MOVE_B_WRITE, HI, LO, HI, 2, 0x01, HI},
    {"word read at lo", MOVE_W_READ, LO, LO, HI, 0, 0, 0},
    {"word read below lo", MOVE_W_READ, LO - 2, LO, HI, 2, 0x11, LO - 2},
    {"word read below hi", MOVE_W_READ, HI - 2, LO, HI, 0, 0, 0},
    {"word read at hi", MOVE_W_READ, HI, LO, HI, 2, 0x11, HI},
    {"word write at lo", MOVE_W_WRITE, LO, LO, HI, 0, 0, 0},
    {"word write below lo", MOVE_W_WRITE, LO - 2, LO, HI, 2, 0x01, LO - 2},
    {"word write below hi", MOVE_W_WRITE, HI - 2, LO, HI, 0, 0, 0},
    {"word write at hi", MOVE_W_WRITE, HI, LO, HI, 2, 0x01, HI},
    /* a long is two words: the first that fails */
    {"long read at lo", MOVE_L_READ, LO, LO, HI, 0, 0, 0},
    {"long read across lo", MOVE_L_READ, LO - 2, LO, HI, 2, 0x11, LO - 2},
    {"long read before lo", MOVE_L_READ, LO - 4, LO, HI, 2, 0x11, LO - 4},
    {"long read below hi", MOVE_L_READ, HI - 4, LO, HI, 0, 0, 0},
    {"long read across hi", MOVE_L_READ, HI - 2, LO, HI, 2, 0x11, HI},
    {"long write at lo", MOVE_L_WRITE, LO, LO, HI, 0, 0, 0},
    {"long write across lo", MOVE_L_WRITE, LO - 2, LO, HI, 2, 0x01, LO - 2},
    {"long write below hi", MOVE_L_WRITE, HI - 4, LO, HI, 0, 0, 0},
    {"long write across hi", MOVE_L_WRITE, HI - 2, LO, HI, 2, 0x01, HI},
    /* odd edges: bytes are inside to the last, a word that is cut is outside */
    {"byte at an odd lo", MOVE_B_READ, LO + 1, LO + 1, HI, 0, 0, 0},
    {"byte below an odd lo", MOVE_B_READ, LO, LO + 1, HI, 2, 0x11, LO},
    {"byte below an odd hi", MOVE_B_WRITE, HI - 2, LO, HI - 1, 0, 0, 0},
    {"byte at an odd hi", MOVE_B_WRITE, HI - 1, LO, HI - 1, 2, 0x01, HI - 1},
    {"word cut by lo", MOVE_W_READ, LO, LO + 1, HI, 2, 0x11, LO},
    {"word above an odd lo", MOVE_W_READ, LO + 2, LO + 1, HI, 0, 0, 0},
    {"word cut by hi", MOVE_W_WRITE, HI - 2, LO, HI - 1, 2, 0x01, HI - 2},
    {"word below an odd hi", MOVE_W_WRITE, HI - 4, LO, HI - 1, 0, 0, 0},
    {"long cut by hi", MOVE_L_WRITE, HI - 4, LO, HI - 1, 2, 0x01, HI - 2},
    /* odd before the window */
    {"odd word inside", MOVE_W_READ, LO + 1, LO, HI, 3, 0x11, LO + 1},
    {"odd word across lo", MOVE_W_READ, LO - 1, LO, HI, 3, 0x11, LO - 1},
    {"odd word across hi", MOVE_W_WRITE, HI - 1, LO, HI, 3, 0x01, HI - 1},
    {"odd word far outside", MOVE_W_WRITE, 0x101, LO, HI, 3, 0x01, 0x101},
    {"odd long outside", MOVE_L_READ, HI + 1, LO, HI, 3, 0x11, HI + 1},
    /* the address is cut to 24 bits */
    {"upper byte of A0, inside", MOVE_W_READ, 0xAB000000u + LO, LO, HI, 0, 0, 0},
    {"upper byte of A0, outside", MOVE_W_READ, 0xAB000000u + HI, LO, HI, 2, 0x11, HI},
    /* the window's end is memory's, or its start is memory's */
    {"the last word of memory", MOVE_W_WRITE, MEMORY - 2, LO, MEMORY, 0, 0, 0},
    {"past memory", MOVE_W_WRITE, MEMORY, LO, MEMORY, 2, 0x01, MEMORY},
    {"far past memory", MOVE_B_READ, 0xFFFFFF, LO, MEMORY, 2, 0x11, 0xFFFFFF},
    {"the first byte of memory", MOVE_B_READ, 0, 0, HI, 0, 0, 0},
    {"the first byte of memory, outside", MOVE_B_READ, 0, 1, HI, 2, 0x11, 0},
    /* read first, then written */
    {"ADDQ.W #1,(A0)", {0x5250}, HI, LO, HI, 2, 0x11, HI},
    {"CLR.W (A0)", {0x4250}, HI, LO, HI, 2, 0x11, HI},
    {"ST (A0)", {0x50D0}, LO - 1, LO, HI, 2, 0x11, LO - 1},
    {"TAS (A0)", {0x4AD0}, HI, LO, HI, 2, 0x11, HI},
    {"NOT.L (A0)", {0x4690}, HI - 2, LO, HI, 2, 0x11, HI},
    {"BSET D0,(A0)", {0x01D0}, HI, LO, HI, 2, 0x11, HI},
    {"ASL.W (A0)", {0xE1D0}, LO - 2, LO, HI, 2, 0x11, LO - 2},
    /* A0 stays where its access fails */
    {"MOVE.W (A0)+,D1", {0x3218}, HI, LO, HI, 2, 0x11, HI},
    {"MOVE.W D0,-(A0)", {0x3100}, LO, LO, HI, 2, 0x01, LO - 2},
    {"MOVE.W D0,-(A0), inside", {0x3100}, LO + 2, LO, HI, 0, 0, 0},
    {"MOVE.W (A0)+,(A0)+, the second outside", {0x30D8}, HI - 2, LO, HI, 2, 0x01, HI},
    /* other ways to an address */
    {"MOVE.W $600.W,D1", {0x3238, HI}, 0, LO, HI, 2, 0x11, HI},
    {"MOVE.W $5FE.W,D1", {0x3238, HI - 2}, 0, LO, HI, 0, 0, 0},
    {"MOVE.W $600.L,D1", {0x3239, 0, HI}, 0, LO, HI, 2, 0x11, HI},
    {"MOVE.W 2(A0),D1", {0x3228, 2}, HI - 2, LO, HI, 2, 0x11, HI},
    {"MOVE.W d(PC),D1: program", {0x323A, HI - CODE - 2}, 0, LO, HI, 2, 0x12, HI},
    {"MOVE.W d(PC),D1, inside", {0x323A, HI - CODE - 4}, 0, LO, HI, 0, 0, 0},
    {"MOVEP.W D0,0(A0): the second byte", {0x0188, 0}, HI - 2, LO, HI, 2, 0x01, HI},
    {"MOVEP.W D0,0(A0), inside", {0x0188, 0}, HI - 3, LO, HI, 0, 0, 0},
    {"LEA (A0),A1: no access", {0x43D0}, HI, LO, HI, 0, 0, 0}};

/* The same of A7: in supervisor state that is SSP. */
static const struct access stacks[] = {
    {"BSR", {0x6102}, LO + 4, LO, HI, 0, 0, 0},
    {"BSR, below lo", {0x6102}, LO + 2, LO, HI, 2, 0x01, LO - 2},
    {"BSR, far below lo", {0x6102}, LO, LO, HI, 2, 0x01, LO - 4},
    {"BSR, across hi", {0x6102}, HI + 2, LO, HI, 2, 0x01, HI},
    {"BSR, from hi", {0x6102}, HI, LO, HI, 0, 0, 0},
    {"BSR, odd", {0x6102}, LO + 1, LO, HI, 3, 0x01, LO - 3},
    {"JSR $4F0.W", {0x4EB8, 0x4F0}, LO + 2, LO, HI, 2, 0x01, LO - 2},
    {"PEA $800.W: only the push", {0x4878, 0x800}, LO + 4, LO, HI, 0, 0, 0},
    {"PEA $400.W", {0x4878, LO}, LO + 2, LO, HI, 2, 0x01, LO - 2},
    {"LINK A6,#-4", {0x4E56, 0xFFFC}, LO + 2, LO, HI, 2, 0x01, LO - 2},
    {"LINK A6,#-4, inside", {0x4E56, 0xFFFC}, LO + 4, LO, HI, 0, 0, 0},
    {"RTS, below lo", {0x4E75}, LO - 2, LO, HI, 2, 0x11, LO - 2},
    {"RTS, across hi", {0x4E75}, HI - 2, LO, HI, 2, 0x11, HI},
    {"RTR, across hi", {0x4E77}, HI - 2, LO, HI, 2, 0x11, HI},
    {"RTR, across hi, its long", {0x4E77}, HI - 4, LO, HI, 2, 0x11, HI},
    {"MOVE.W (A7)+,D1", {0x321F}, HI, LO, HI, 2, 0x11, HI},
    {"MOVEM.L D0-D1,-(A7)", {0x48E7, 0xC000}, LO + 8, LO, HI, 0, 0, 0},
    {"MOVEM.L D0-D1,-(A7), below lo", {0x48E7, 0xC000}, LO + 6, LO, HI, 2, 0x01, LO - 2},
    {"MOVEM.L D0-D1,-(A7), cut by lo", {0x48E7, 0xC000}, LO + 8, LO + 1, HI, 2, 0x01, LO},
    {"MOVEM.L (A7)+,D0-D1", {0x4CDF, 0x0003}, HI - 8, LO, HI, 0, 0, 0},
    {"MOVEM.L (A7)+,D0-D1, across hi", {0x4CDF, 0x0003}, HI - 6, LO, HI, 2, 0x11, HI},
    {"MOVEM.W (A7)+,D0-D1, cut by hi", {0x4C9F, 0x0003}, HI - 4, LO, HI - 1, 2, 0x11, HI - 2}};

static void begin(const struct access *x, int stack, unsigned sr) {
  set_up(CODE, x->words, 3, x->a, sr);
  if (stack) ibz_set(block, IBZ_A0, 0), ibz_set(block, (sr & SUPERVISOR) != 0 ? IBZ_SSP : IBZ_USP, x->a);
  lo = x->lo, hi = x->hi;
  keep();
}

/* One of them: in user state; by all other calls, which lead to the same; then where nothing is fenced. */
static int as_told(const struct access *x, int stack) {
  static uint8_t now_block[BLOCK], now_memory[MEMORY];
  begin(x, stack, 0);
  struct ibz_step_answer a = step();
  memcpy(now_block, block, BLOCK), memcpy(now_memory, memory, MEMORY);
  int good = x->vector != 0 ? blamed(a, x->vector, x->information, x->address, x->words[0])
                            : a.number == 0 && a.event == 0 && undone(a.mark);
  for (unsigned call = 0; call < 4; call++) {
    begin(x, stack, 0);
    struct ibz_try_answer t = {x->vector == 0 ? IBZ_END_SPENT : IBZ_END_EXCEPTION, 0, x->vector, 1, a.mark};
    size_t mark = a.mark;
    if (call == 0) mark = ibz_step(block, BLOCK, lo, hi, memory, MEMORY, IBZ_NO_ROM, 0, 0, journal, JOURNAL, 0).mark;
    if (call == 1) mark = ibz_run(block, BLOCK, lo, hi, memory, MEMORY, IBZ_NO_ROM, 1, 1, journal, JOURNAL, 0).mark;
    if (call == 2) mark = ibz_run_keeping(block, BLOCK, lo, hi, memory, MEMORY, IBZ_NO_ROM, 1, 1, journal, JOURNAL, 0).mark;
    if (call == 3) t = try_from(1, JOURNAL, 0);
    good = good && mark == a.mark && memcmp(block, now_block, BLOCK) == 0 && memcmp(memory, now_memory, MEMORY) == 0;
    good = good && t.end == (x->vector == 0 ? IBZ_END_SPENT : IBZ_END_EXCEPTION) && t.number == 0 && t.vector == x->vector;
    good = good && t.steps == 1 && t.mark == a.mark;
  }
  const int inside = x->vector != 3 && (x->address & 0xFFFFFFu) < MEMORY; /* it is neither odd nor past memory */
  if (!inside) return good;
  begin(x, stack, SUPERVISOR); /* supervisor state, with this window and with none */
  a = step();
  good = good && a.number == 0 && a.event == 0 && undone(a.mark);
  begin(x, stack, SUPERVISOR), lo = hi = 0;
  a = step();
  good = good && a.number == 0 && a.event == 0 && undone_in(MEMORY, MEMORY, a.mark);
  begin(x, stack, 0), lo = 0, hi = MEMORY; /* user state, in all of memory */
  a = step();
  return good && a.number == 0 && a.event == 0 && undone_in(LO, HI, a.mark);
}

static void each(void) {
  for (const struct access *x = accesses; x < accesses + sizeof accesses / sizeof *accesses; x++) {
    const int good = as_told(x, 0);
    if (!good) puts(x->what);
    EXPECT(good);
  }
  for (const struct access *x = stacks; x < stacks + sizeof stacks / sizeof *stacks; x++) {
    const int good = as_told(x, 1);
    if (!good) puts(x->what);
    EXPECT(good);
  }
}

/* ---- operation word and extension words */

static void fetches(void) {
  static const uint16_t moveq[] = {0x7201}, move[] = {0x323C, 0x0001}, move_long[] = {0x23FC, 0, 1, 0, 0x500}, jmp[] = {0x4ED0};
  static const struct { uint32_t pc, lo, hi, vector; } ops[] = {
      {LO, LO, HI, 0},          {HI - 2, LO, HI, 0},      {LO - 2, LO, HI, 2},          {HI, LO, HI, 2},
      {HI + 1, LO, HI, 3},      {LO - 1, LO, HI, 3},      {LO, LO + 1, HI, 2},          {HI - 2, LO, HI - 1, 2},
      {CODE, CODE, CODE + 2, 0}, {CODE, CODE, CODE + 1, 2}, {CODE, CODE + 2, CODE + 2, 2}};
  struct ibz_step_answer a;
  for (unsigned i = 0; i < sizeof ops / sizeof *ops; i++) {
    set_up(ops[i].pc, moveq, 1, 0, 0);
    lo = ops[i].lo, hi = ops[i].hi;
    a = step(); /* a word that can not be read is 0 in the frame */
    if (ops[i].vector != 0) EXPECT(blamed(a, ops[i].vector, 0x12, ops[i].pc, 0));
    else EXPECT(a.number == 0 && a.event == 0 && ibz_get(block, IBZ_D1) == 1 && undone(a.mark));
    set_up(ops[i].pc & ~1u, moveq, 1, 0, SUPERVISOR);
    lo = ops[i].lo, hi = ops[i].hi;
    a = step();
    EXPECT(a.number == 0 && a.event == 0 && ibz_get(block, IBZ_D1) == 1 && undone(a.mark));
  }
  set_up(HI - 2, move, 2, 0, 0); /* the extension word is at hi */
  EXPECT(blamed(step(), 2, 0x12, HI, 0x323C));
  set_up(HI - 4, move, 2, 0, 0), hi = HI - 1; /* hi cuts it */
  EXPECT(blamed(step(), 2, 0x12, HI - 2, 0x323C));
  set_up(HI - 4, move, 2, 0, 0);
  a = step();
  EXPECT(a.event == 0 && ibz_get(block, IBZ_PC) == HI && ibz_get(block, IBZ_D1) == 1 && undone(a.mark));
  for (unsigned words = 1; words < 5; words++) { /* MOVE.L #1,$500.L: its second word to its fifth */
    set_up(CODE, move_long, 5, 0, 0), hi = CODE + 2 * words;
    EXPECT(blamed(step(), 2, 0x12, CODE + 2 * words, 0x23FC));
  }
  set_up(CODE, move_long, 5, 0, 0), hi = CODE + 10; /* all are read, and then the operand is outside */
  EXPECT(blamed(step(), 2, 0x01, 0x500, 0x23FC));
  set_up(CODE, jmp, 1, HI, 0); /* a jump out of the window is done; the next step faults, by its own address */
  a = step();
  EXPECT(a.event == 0 && ibz_get(block, IBZ_PC) == HI);
  keep();
  a = step();
  EXPECT(blamed(a, 2, 0x12, HI, 0));
  set_up(CODE, jmp, 1, HI + 1, 0); /* to an odd address: in its own step */
  EXPECT(blamed(step(), 3, 0x12, HI + 1, 0x4ED0));
}

/* ---- what is not fenced from user state */

/* An exception with a short frame at SSP, to vector v's handler; the bytes about it stay. */
static int entered(uint32_t vector, uint32_t ssp, uint32_t sr, uint32_t pc) {
  return ibz_get(block, IBZ_SSP) == ssp && ibz_get(block, IBZ_PC) == handler(vector) && word_at(ssp) == sr && word_at(ssp + 2) == 0
         && word_at(ssp + 4) == pc && memcmp(memory, old_memory, ssp) == 0;
}

static void exceptions(void) {
  static const struct { uint16_t words[2]; uint32_t vector, pc; } traps[] = {
      {{0x4E40}, 32, CODE + 2},          /* TRAP #0 */
      {{0x4E4F}, 47, CODE + 2},          /* TRAP #15 */
      {{0x4AFC}, 4, CODE},               /* ILLEGAL */
      {{0xA000}, 10, CODE},              /* lines 1010 and 1111 */
      {{0xF000}, 11, CODE},
      {{0x46FC, 0x2700}, 8, CODE},       /* MOVE #$2700,SR; STOP; RTE; RESET; MOVE A6,USP */
      {{0x4E72, 0x2700}, 8, CODE},
      {{0x4E73}, 8, CODE},
      {{0x4E70}, 8, CODE},
      {{0x4E66}, 8, CODE},
      {{0x80FC, 0}, 5, CODE + 4},        /* DIVU #0,D0 */
      {{0x41BC, 0x1000}, 6, CODE + 4}};  /* CHK #$1000,D0 */
  struct ibz_step_answer a;
  for (unsigned i = 0; i < sizeof traps / sizeof *traps; i++) { /* frame and vector are outside the window, and are taken */
    set_up(CODE, traps[i].words, 2, 0, 0);
    a = step();
    EXPECT(a.number == 0 && a.event == traps[i].vector + 1 && entered(traps[i].vector, SSP - 6, 0, traps[i].pc) == 1 && undone(a.mark));
    set_up(CODE, traps[i].words, 2, 0, 0);
    const struct ibz_try_answer t = try_from(9, JOURNAL, 0);
    EXPECT(t.end == IBZ_END_EXCEPTION && t.number == 0 && t.vector == traps[i].vector && t.steps == 1 && t.mark == a.mark);
  }
  static const uint16_t nop[] = {0x4E71}, rte[] = {0x4E73}, to_user[] = {0x46FC, 0x0000};
  set_up(CODE, nop, 1, 0, TRACE);
  a = step();
  EXPECT(a.event == 10 && entered(9, SSP - 6, TRACE, CODE + 2) && undone(a.mark));
  /* an interrupt reads no instruction: its PC may be outside, and the window empty */
  for (unsigned i = 0; i < 3; i++) {
    set_up(i == 0 ? CODE : HI + 0x10, nop, 1, 0, 0), lo = i == 2 ? HI : LO;
    a = step_at(4, 64, 0);
    EXPECT(a.number == 0 && a.event == 65 && entered(64, SSP - 6, 0, i == 0 ? CODE : HI + 0x10) && undone_in(lo, hi, a.mark));
  }
  set_up(HI, nop, 1, 0, 0x0400); /* masked: the instruction, and that is outside */
  EXPECT(blamed(step_at(4, 64, 0), 2, 0x12, HI, 0));
  /* a stopped machine reads nothing; an interrupt goes on with it */
  set_up(HI, nop, 1, 0, 0), ibz_set(block, IBZ_MODE, IBZ_MODE_STOPPED), keep();
  a = step();
  EXPECT(a.number == 0 && a.event == 0 && a.clocks == 4 && a.mark == 2 && same_state());
  a = step_at(1, 64, 0);
  EXPECT(a.event == 65 && entered(64, SSP - 6, 0, HI) && ibz_get(block, IBZ_MODE) == 0 && undone(a.mark));
  /* the frame of a fault can not be written: the machine halts, and nothing else changes */
  for (unsigned i = 0; i < 2; i++) {
    set_up(HI, nop, 1, 0, 0), ibz_set(block, IBZ_SSP, i == 0 ? SSP + 1 : MEMORY + 16), keep();
    a = step();
    EXPECT(a.event == IBZ_EVENT_HALT && a.mark == 4 && memcmp(journal, "\x13\0\1", 4) == 0 && memcmp(memory, old_memory, MEMORY) == 0);
    EXPECT(undone(a.mark));
  }
  /* the supervisor goes over to user state: its own words are not fenced, the next one is */
  set_up(0x700, rte, 1, 0, SUPERVISOR), put(SSP, 0), put(SSP + 2, 0), put(SSP + 4, 0x700), keep();
  a = step();
  EXPECT(a.event == 0 && ibz_get(block, IBZ_PC) == 0x700 && ibz_get(block, IBZ_SR) == 0);
  keep();
  EXPECT(blamed(step(), 2, 0x12, 0x700, 0));
  set_up(HI - 2, to_user, 2, 0, SUPERVISOR);
  a = step();
  EXPECT(a.event == 0 && ibz_get(block, IBZ_PC) == HI + 2 && ibz_get(block, IBZ_SR) == 0);
  keep();
  EXPECT(blamed(step(), 2, 0x12, HI + 2, 0));
  /* an empty window, wherever it is */
  static const uint32_t empty[] = {0, LO, CODE, CODE + 1, CODE + 2, MEMORY};
  for (unsigned i = 0; i < sizeof empty / sizeof *empty; i++) {
    set_up(CODE, nop, 1, 0, 0), lo = hi = empty[i];
    EXPECT(blamed(step(), 2, 0x12, CODE, 0));
  }
}

/* The largest memory: its last word, a long that goes round to address 0, and a window that has not both. */
static void largest(int at_end) {
  static const struct { uint16_t word; uint32_t a0, lo, hi, vector, address; } cases[] = {
      {0x3210, 0xFFFFFE, 0, 0x1000000, 0, 0}, {0x3210, 0xFFFFFE, 0, 0xFFFFFF, 2, 0xFFFFFE}, {0x1210, 0xFFFFFF, 1, 0x1000000, 0, 0},
      {0x2210, 0xFFFFFE, 0, 0x1000000, 0, 0}, {0x2210, 0xFFFFFE, 0, 0xFFFFFE, 2, 0xFFFFFE}, {0x2210, 0xFFFFFE, 2, 0x1000000, 2, 0}};
  uint8_t *const large = guarded(IBZ_MEMORY_MOST, at_end);
  struct ibz_fault f;
  for (unsigned i = 0; i < sizeof cases / sizeof *cases; i++) {
    memset(block, 0, BLOCK), memset(large, 0, 4096);
    ibz_set(block, IBZ_PC, CODE), ibz_set(block, IBZ_A0, cases[i].a0), ibz_set(block, IBZ_SSP, SSP);
    large[CODE] = (uint8_t)(cases[i].word >> 8), large[CODE + 1] = (uint8_t)cases[i].word;
    const struct ibz_step_answer a =
        ibz_step_keeping(block, BLOCK, cases[i].lo, cases[i].hi, large, IBZ_MEMORY_MOST, IBZ_NO_ROM, 0, 0, journal, JOURNAL, 0);
    EXPECT(a.number == 0 && a.event == (cases[i].vector == 0 ? 0 : cases[i].vector + 1));
    if (cases[i].vector != 0) EXPECT(ibz_get_fault(block, large, IBZ_MEMORY_MOST, &f) && f.address == cases[i].address && f.information == 0x11);
  }
  const struct ibz_reset_answer r = ibz_reset(block, BLOCK, large, IBZ_MEMORY_MOST, IBZ_NO_ROM);
  EXPECT(r.number == 0 && r.lo == 0 && r.hi == 0x1000000);
  EXPECT(ibz_step(block, BLOCK, r.lo, r.hi + 1, large, IBZ_MEMORY_MOST, IBZ_NO_ROM, 0, 0, journal, JOURNAL, 0).number == IBZ_BAD_WINDOW);
}

/* ---- refusal 10, in both states and in all modes */

static void refusals(void) {
  static const uint16_t moveq[] = {0x7201};
  static const struct { uint32_t lo, hi, number; } windows[] = {
      {0, 0, 0},                     {LO, LO, 0},                   {0, MEMORY, 0},
      {MEMORY, MEMORY, 0},           {1, 0, 10},                    {LO + 1, LO, 10},
      {MEMORY + 1, MEMORY, 10},      {0, MEMORY + 1, 10},           {MEMORY, MEMORY + 1, 10},
      {MEMORY + 1, MEMORY + 1, 10},  {0xFFFFFFFFu, MEMORY, 10},     {0, 0xFFFFFFFFu, 10},
      {0, 0x1000000, 10},            {0x10000, MEMORY, 10},         {0, 0x80000000u, 10},
      {0xFFFFFFFFu, 0xFFFFFFFFu, 10}, {0, 0x10000u + MEMORY, 10}}; /* all 32 bits are judged */
  for (unsigned i = 0; i < sizeof windows / sizeof *windows; i++)
    for (unsigned mode = 0; mode < 3; mode++)
      for (unsigned sr = 0; sr <= SUPERVISOR; sr += SUPERVISOR) {
        const uint32_t l = windows[i].lo, h = windows[i].hi, n = windows[i].number;
        set_up(CODE, moveq, 1, 0, sr), ibz_set(block, IBZ_MODE, mode), memset(journal, 0, 4), keep();
        const uint32_t halted = n == 0 && mode == 2 ? 6 : n;
        const struct ibz_step_answer s = ibz_step(block, BLOCK, l, h, memory, MEMORY, IBZ_NO_ROM, 0, 0, journal, JOURNAL, 4);
        EXPECT(s.number == halted && (s.number == 0 || (s.mark == 4 && s.event == 0 && s.clocks == 0 && kept())));
        memcpy(block, old_block, BLOCK), memcpy(memory, old_memory, MEMORY), memcpy(journal, old_journal, JOURNAL);
        const struct ibz_step_answer k = ibz_step_keeping(block, BLOCK, l, h, memory, MEMORY, IBZ_NO_ROM, 0, 0, journal, JOURNAL, 4);
        EXPECT(k.number == halted && (k.number == 0 || (k.mark == 4 && k.event == 0 && k.clocks == 0 && kept())));
        memcpy(block, old_block, BLOCK), memcpy(memory, old_memory, MEMORY), memcpy(journal, old_journal, JOURNAL);
        const struct ibz_run_answer r = ibz_run(block, BLOCK, l, h, memory, MEMORY, IBZ_NO_ROM, 0, 0, journal, JOURNAL, 4);
        EXPECT(r.number == n && r.reason == (n == 0) && r.mark == 4 && r.steps == 0 && r.clocks == 0 && kept());
        const struct ibz_run_answer q = ibz_run_keeping(block, BLOCK, l, h, memory, MEMORY, IBZ_NO_ROM, 0, 0, journal, JOURNAL, 4);
        EXPECT(q.number == n && q.reason == (n == 0) && q.mark == 4 && q.steps == 0 && q.clocks == 0 && kept());
        const struct ibz_undo_answer u = ibz_undo(block, BLOCK, l, h, memory, MEMORY, IBZ_NO_ROM, journal, JOURNAL, 4);
        EXPECT(u.number == n && u.mark == (n == 0 ? 2u : 4u) && kept());
        const struct ibz_try_answer t = ibz_try(block, BLOCK, l, h, memory, MEMORY, IBZ_NO_ROM, 0, journal, JOURNAL, 4);
        EXPECT(t.number == halted && t.mark == 4 && t.steps == 0 && t.vector == 0 && kept());
        EXPECT(t.end == (t.number != 0 ? IBZ_END_REFUSED : sr != 0 ? IBZ_END_SUPERVISED : IBZ_END_SPENT));
        const struct ibz_back_answer b = ibz_take_back(block, BLOCK, l, h, memory, MEMORY, IBZ_NO_ROM, journal, JOURNAL, 4, 2, 7, 9);
        EXPECT(b.number == n && kept() && b.undone == (n == 0 ? 2u : 0u) && b.mark == (n == 0 ? 0u : 4u));
        EXPECT(b.lo == (n == 0 ? 7 : l) && b.hi == (n == 0 ? 9 : h));
      }
}

/* ---- the tryer */

static int is(struct ibz_try_answer a, uint32_t end, uint32_t number, uint32_t vector, uint32_t steps, size_t mark) {
  return a.end == end && a.number == number && a.vector == vector && a.steps == steps && a.mark == mark;
}

/* Takes so many steps back, from a mark to a mark: all is then what it was before the try, the old window too, and the journal what it
 * was after it. */
static int taken_back(uint32_t steps, size_t from, size_t to) {
  memcpy(old_journal, journal, JOURNAL);
  const struct ibz_back_answer b =
      ibz_take_back(block, BLOCK, lo, hi, memory, MEMORY, IBZ_NO_ROM, journal, JOURNAL, from, steps, 0x123, 0xABCDEF01u);
  return b.number == 0 && b.undone == steps && b.mark == to && b.lo == 0x123 && b.hi == 0xABCDEF01u && kept();
}

/* The steps of the same try by ibz_step_keeping, from what was kept, lead to the same: block, memory, journal, mark. */
static int as_steps(uint32_t steps, size_t from, size_t to) {
  static uint8_t now_block[BLOCK], now_memory[MEMORY], now_journal[JOURNAL];
  memcpy(now_block, block, BLOCK), memcpy(now_memory, memory, MEMORY), memcpy(now_journal, journal, JOURNAL);
  memcpy(block, old_block, BLOCK), memcpy(memory, old_memory, MEMORY), memcpy(journal, old_journal, JOURNAL);
  int good = 1;
  for (uint32_t i = 0; i < steps; i++) {
    const struct ibz_step_answer a = step_at(0, 0, from);
    good = good && a.number == 0 && a.mark > from;
    from = a.mark;
  }
  return good && from == to && memcmp(block, now_block, BLOCK) == 0 && memcmp(memory, now_memory, MEMORY) == 0
         && memcmp(journal, now_journal, JOURNAL) == 0;
}

static void tries(void) {
  /* D1 is counted down from 3 in a loop, and its last values stand in the window; then what `last` has */
  static const uint16_t pattern[] = {0x7203, 0x31C1, 0x0580, 0x5341, 0x66F8, 0x4E71, 0x4E71};
  static const struct { uint16_t words[2]; unsigned sr; uint32_t ssp, end, vector; } lasts[] = {
      {{0x46FC, 0x2700}, 0, SSP, IBZ_END_EXCEPTION, 8},  /* MOVE #$2700,SR */
      {{0x31C0, HI}, 0, SSP, IBZ_END_EXCEPTION, 2},      /* MOVE.W D0,$600.W: outside */
      {{0x31C0, HI - 1}, 0, SSP, IBZ_END_EXCEPTION, 3},  /* odd */
      {{0x4AFC, 0}, 0, SSP, IBZ_END_EXCEPTION, 4},
      {{0x4E43, 0}, 0, SSP, IBZ_END_EXCEPTION, 35},
      {{0x4AFC, 0}, 0, SSP + 1, IBZ_END_HALTED, 0},      /* an odd SSP: the frame can not be written */
      {{0x31C0, HI}, 0, MEMORY + 2, IBZ_END_HALTED, 0}}; /* nor this one */
  for (unsigned i = 0; i < sizeof lasts / sizeof *lasts; i++)
    for (size_t mark = 0; mark < 5; mark += 4) {
      set_up(CODE, pattern, 7, 0, 0), ibz_set(block, IBZ_SSP, lasts[i].ssp);
      put(CODE + 14, lasts[i].words[0]), put(CODE + 16, lasts[i].words[1]);
      memset(journal, 0, mark), keep();
      struct ibz_try_answer a = try_from(12, JOURNAL, mark); /* MOVEQ, three times MOVE, SUBQ, BNE, and two NOPs */
      EXPECT(is(a, IBZ_END_SPENT, 0, 0, 12, a.mark) && ibz_get(block, IBZ_PC) == CODE + 14 && word_at(0x580) == 1);
      EXPECT(as_steps(12, mark, a.mark) && taken_back(12, a.mark, mark));
      memcpy(journal, old_journal, JOURNAL), keep();
      a = try_from(1000000, JOURNAL, mark);
      EXPECT(is(a, lasts[i].end, 0, lasts[i].vector, 13, a.mark) && ibz_get(block, IBZ_MODE) == (lasts[i].end == IBZ_END_HALTED ? 2u : 0u));
      EXPECT(lasts[i].end == IBZ_END_HALTED || ibz_get(block, IBZ_PC) == handler(lasts[i].vector));
      /* another try goes on from there: it starts in supervisor state, or halted */
      const struct ibz_try_answer b = try_from(1, JOURNAL, a.mark);
      EXPECT(lasts[i].end == IBZ_END_HALTED ? is(b, IBZ_END_REFUSED, IBZ_IS_HALTED, 0, 0, a.mark) : is(b, IBZ_END_SUPERVISED, 0, 0, 0, a.mark));
      EXPECT(as_steps(13, mark, a.mark) && taken_back(13, a.mark, mark));
    }
}

static void ends(void) {
  static const uint16_t itself[] = {0x60FE}, trap[] = {0x4E40}, moveq[] = {0x7201};
  struct ibz_try_answer a;
  set_up(CODE, itself, 1, 0, 0); /* the count: 0, and above 1,000,000 */
  EXPECT(is(try_from(0, JOURNAL, 0), IBZ_END_SPENT, 0, 0, 0, 0) && kept());
  EXPECT(is(try_from(1000001, JOURNAL, 0), IBZ_END_REFUSED, IBZ_BAD_REQUEST, 0, 0, 0) && kept());
  EXPECT(is(try_from(0xFFFFFFFFu, JOURNAL, 0), IBZ_END_REFUSED, IBZ_BAD_REQUEST, 0, 0, 0) && kept());
  EXPECT(is(try_from(1000001, JOURNAL, JOURNAL + 1), IBZ_END_REFUSED, IBZ_BAD_REQUEST, 0, 0, JOURNAL + 1) && kept());
  EXPECT(is(try_from(0, JOURNAL, JOURNAL + 1), IBZ_END_REFUSED, IBZ_BAD_MARK, 0, 0, JOURNAL + 1) && kept());
  EXPECT(is(try_from(0, JOURNAL, SIZE_MAX), IBZ_END_REFUSED, IBZ_BAD_MARK, 0, 0, SIZE_MAX) && kept());
  EXPECT(is(try_from(0, 535, 0), IBZ_END_REFUSED, IBZ_JOURNAL_FULL, 0, 0, 0) && kept());
  EXPECT(is(try_from(0, 536, 0), IBZ_END_SPENT, 0, 0, 0, 0) && kept());
  EXPECT(is(try_from(0, 536, 1), IBZ_END_REFUSED, IBZ_JOURNAL_FULL, 0, 0, 1) && kept());
  ibz_set(block, IBZ_MODE, IBZ_MODE_HALTED), keep();
  EXPECT(is(try_from(0, JOURNAL, 0), IBZ_END_REFUSED, IBZ_IS_HALTED, 0, 0, 0) && kept());
  ibz_set(block, IBZ_SR, SUPERVISOR), keep(); /* a refusal before the supervisor */
  EXPECT(is(try_from(5, JOURNAL, 0), IBZ_END_REFUSED, IBZ_IS_HALTED, 0, 0, 0) && kept());
  EXPECT(is(try_from(5, 535, 0), IBZ_END_REFUSED, IBZ_JOURNAL_FULL, 0, 0, 0) && kept());
  for (unsigned i = 0; i < 4; i++) { /* a start in supervisor state, with any count and window, running or stopped */
    set_up(i == 1 ? 0x701 : CODE, itself, 1, 0, SUPERVISOR | (i == 2 ? TRACE : 0));
    if (i == 3) lo = hi = 0, ibz_set(block, IBZ_MODE, IBZ_MODE_STOPPED), keep();
    EXPECT(is(try_from(i == 0 ? 0 : 7, JOURNAL, i), IBZ_END_SUPERVISED, 0, 0, 0, i) && kept());
  }
  set_up(CODE, itself, 1, 0, 0), ibz_set(block, IBZ_MODE, IBZ_MODE_STOPPED), keep(); /* stopped in user state: steps that change nothing */
  EXPECT(is(try_from(3, JOURNAL, 0), IBZ_END_SPENT, 0, 0, 3, 6) && same_state() && taken_back(3, 6, 0));
  /* traced: the first of two vectors is named, and both frames are there */
  set_up(CODE, trap, 1, 0, TRACE);
  a = try_from(9, JOURNAL, 0);
  EXPECT(is(a, IBZ_END_EXCEPTION, 0, 32, 1, a.mark) && ibz_get(block, IBZ_PC) == handler(9) && ibz_get(block, IBZ_SSP) == SSP - 12);
  EXPECT(word_at(SSP - 6) == TRACE && word_at(SSP - 2) == CODE + 2 && word_at(SSP - 12) == SUPERVISOR && word_at(SSP - 8) == handler(32));
  EXPECT(as_steps(1, 0, a.mark) && taken_back(1, a.mark, 0));
  set_up(CODE, trap, 1, 0, TRACE), ibz_set(block, IBZ_SSP, 6), keep(); /* the second could not be written: the first is named all the same */
  a = try_from(9, JOURNAL, 0);
  EXPECT(is(a, IBZ_END_EXCEPTION, 0, 32, 1, a.mark) && ibz_get(block, IBZ_MODE) == 2 && ibz_get(block, IBZ_SSP) == 0 && taken_back(1, a.mark, 0));
  set_up(CODE, moveq, 1, 0, TRACE);
  a = try_from(9, JOURNAL, 0);
  EXPECT(is(a, IBZ_END_EXCEPTION, 0, 9, 1, a.mark) && ibz_get(block, IBZ_D1) == 1 && taken_back(1, a.mark, 0));
  set_up(CODE, moveq, 1, 0, TRACE), ibz_set(block, IBZ_SSP, SSP + 1), keep(); /* a trace that can not be taken: halt */
  a = try_from(9, JOURNAL, 0);
  EXPECT(is(a, IBZ_END_HALTED, 0, 0, 1, a.mark) && ibz_get(block, IBZ_D1) == 1 && ibz_get(block, IBZ_MODE) == 2 && taken_back(1, a.mark, 0));
  /* the journal is full after some steps, which stand: marks 0, 2, .. 24 have room in 560 bytes */
  set_up(CODE, itself, 1, 0, 0);
  a = try_from(100, 560, 0);
  EXPECT(is(a, IBZ_END_REFUSED, IBZ_JOURNAL_FULL, 0, 13, 26) && same_state());
  for (unsigned i = 0; i < JOURNAL; i++) EXPECT(journal[i] == (i < 26 ? 0 : 0xEE));
  EXPECT(is(try_from(13, 560, 0), IBZ_END_SPENT, 0, 0, 13, 26));
  EXPECT(taken_back(13, 26, 0));
}

/* Taking back: too many, none, in no window, records that are none; and only some of a try. */
static void backs(void) {
  static const uint16_t pattern[] = {0x7203, 0x31C1, 0x0580, 0x5341, 0x66F8, 0x4AFC};
  set_up(CODE, pattern, 6, 0, 0);
  const struct ibz_try_answer a = try_from(50, JOURNAL, 0);
  EXPECT(is(a, IBZ_END_EXCEPTION, 0, 4, 11, a.mark));
  memcpy(old_journal, journal, JOURNAL);
  struct ibz_back_answer b = ibz_take_back(block, BLOCK, lo, hi, memory, MEMORY, IBZ_NO_ROM, journal, JOURNAL, a.mark, 12, 5, 6); /* one too many */
  EXPECT(b.number == IBZ_NO_RECORD && b.undone == 11 && b.mark == 0 && b.lo == LO && b.hi == HI && kept());
  EXPECT(try_from(50, JOURNAL, 0).mark == a.mark);
  b = ibz_take_back(block, BLOCK, lo, hi, memory, MEMORY, IBZ_NO_ROM, journal, JOURNAL, a.mark, 0xFFFFFFFFu, 5, 6);
  EXPECT(b.number == IBZ_NO_RECORD && b.undone == 11 && b.mark == 0 && b.lo == LO && b.hi == HI && kept());
  EXPECT(try_from(50, JOURNAL, 0).mark == a.mark);
  size_t mark = a.mark;
  for (uint32_t i = 0; i < 11; i++) { /* one by one, and by undo in turns */
    if (i % 2 == 0) {
      b = ibz_take_back(block, BLOCK, 0, MEMORY, memory, MEMORY, IBZ_NO_ROM, journal, JOURNAL, mark, 1, i, i + 1);
      EXPECT(b.number == 0 && b.undone == 1 && b.mark < mark && b.lo == i && b.hi == i + 1);
      mark = b.mark;
    } else {
      mark = ibz_undo(block, BLOCK, lo, hi, memory, MEMORY, IBZ_NO_ROM, journal, JOURNAL, mark).mark;
    }
    EXPECT((i < 10) == (mark > 0));
  }
  EXPECT(kept());
  set_up(CODE, pattern, 6, 0, 0); /* no steps: nothing is looked at, and the old window is given, whatever it is */
  b = ibz_take_back(block, BLOCK, 9, 8, memory, 7, IBZ_NO_ROM, journal, JOURNAL, SIZE_MAX, 0, 0xFFFFFFFFu, 3);
  EXPECT(b.number == 0 && b.undone == 0 && b.mark == SIZE_MAX && b.lo == 0xFFFFFFFFu && b.hi == 3 && kept());
  b = ibz_take_back(block, BLOCK, LO, HI, memory, MEMORY, IBZ_NO_ROM, journal, JOURNAL, 0, 1, 5, 6);
  EXPECT(b.number == IBZ_NO_RECORD && b.undone == 0 && b.mark == 0 && b.lo == LO && b.hi == HI && kept());
  b = ibz_take_back(block, BLOCK, HI, LO, memory, MEMORY, IBZ_NO_ROM, journal, JOURNAL, 4, 1, 5, 6);
  EXPECT(b.number == IBZ_BAD_WINDOW && b.undone == 0 && b.mark == 4 && b.lo == HI && b.hi == LO && kept());
  b = ibz_take_back(block, BLOCK, LO, HI, memory, MEMORY, IBZ_NO_ROM, journal, JOURNAL, 4, 1, 5, 6); /* bytes 0xEE: no record */
  EXPECT(b.number == IBZ_BAD_RECORD && b.undone == 0 && b.mark == 4 && b.lo == LO && b.hi == HI && kept());
  memset(journal + 4, 0, 6), keep(); /* three records above them */
  b = ibz_take_back(block, BLOCK, LO, HI, memory, MEMORY, IBZ_NO_ROM, journal, JOURNAL, 10, 5, 5, 6);
  EXPECT(b.number == IBZ_BAD_RECORD && b.undone == 3 && b.mark == 4 && b.lo == LO && b.hi == HI && kept());
  b = ibz_take_back(block, BLOCK, LO, HI, memory, MEMORY, IBZ_NO_ROM, journal, JOURNAL, JOURNAL + 1, 5, 5, 6);
  EXPECT(b.number == IBZ_BAD_MARK && b.undone == 0 && b.mark == JOURNAL + 1 && b.lo == LO && b.hi == HI && kept());
}

/* A million steps, the most that can be asked for, and back. */
static void most(void) {
  enum { LONG = 2000536 };
  static const uint16_t pattern[] = {0x60FE};
  uint8_t *const longer = guarded(LONG, 1);
  set_up(CODE, pattern, 1, 0, 0);
  const struct ibz_try_answer a = ibz_try(block, BLOCK, lo, hi, memory, MEMORY, IBZ_NO_ROM, IBZ_BUDGET_MOST, longer, LONG, 0);
  EXPECT(is(a, IBZ_END_SPENT, 0, 0, 1000000, 2000000) && same_state());
  const struct ibz_back_answer b = ibz_take_back(block, BLOCK, lo, hi, memory, MEMORY, IBZ_NO_ROM, longer, LONG, a.mark, a.steps, 1, 2);
  EXPECT(b.number == 0 && b.undone == 1000000 && b.mark == 0 && b.lo == 1 && b.hi == 2 && same_state());
}

int main(void) {
  for (int end = 0; end < 2; end++) {
    block = guarded(BLOCK, end), memory = guarded(MEMORY, end), journal = guarded(JOURNAL, end);
    each();
    fetches();
    exceptions();
    largest(end);
    refusals();
    tries();
    ends();
    backs();
  }
  most();
  return verdict("window");
}
