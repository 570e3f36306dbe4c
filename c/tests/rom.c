/* rom.c - the ROM, by hand: each access at its edges, from memory and from the ROM itself, in both states and under the window; writes, which
 * fail; what lies across memory's end and the ROM's start; frames; the way back, and records that name the ROM; a reset's window; tries of
 * a program there, and a full journal. (part.c has the refusals and the part.) All of it twice, on buffers that end where pages that can not
 * be touched begin, and on such that begin where they end; and the ROM's pages can not be written. */
#include "tests.h"

enum { MEMORY = 4096, JOURNAL = 2048, BLOCK = IBZ_BLOCK_LENGTH, SUPERVISOR = 0x2000, TRACE = 0x8000 };

/* The ROM; an instruction in memory, and the stacks. */
enum { START = 0xF00000, ROM = 64, END = START + ROM, CODE = 0x480, USP = 0x500, SSP = 0xF00 };

static uint8_t *block, *memory, *journal, *rom, old_block[BLOCK], old_memory[MEMORY], old_journal[JOURNAL];
static uint32_t lo, hi;
static int at_end;

static void put(uint32_t at, unsigned word) {
  uint8_t *const p = at >= START ? rom + (at - START) : memory + at;
  p[0] = (uint8_t)(word >> 8);
  p[1] = (uint8_t)word;
}

/* Puts words where nothing can be written afterwards. */
static void burn(uint32_t at, const uint16_t *words, unsigned n) {
  may_write(rom, ROM, at_end, 1);
  for (unsigned i = 0; i < n; i++) put(at + 2 * i, words[i]);
  may_write(rom, ROM, at_end, 0);
}

static uint32_t word_at(uint32_t at) { return (uint32_t)memory[at] << 8 | memory[at + 1]; }

static void keep(void) {
  memcpy(old_block, block, BLOCK);
  memcpy(old_memory, memory, MEMORY);
  memcpy(old_journal, journal, JOURNAL);
}

static int same_state(void) { return memcmp(block, old_block, BLOCK) == 0 && memcmp(memory, old_memory, MEMORY) == 0; }

static int kept(void) { return same_state() && memcmp(journal, old_journal, JOURNAL) == 0; }

static uint32_t handler(uint32_t vector) { return 0x800 + 16 * vector; }

/* Byte i of the ROM is 0x80 + i, of memory 0; words at PC, in either; D0 is 0x12345678, A0 as given. The window is all of memory and ROM. */
static void set_up(uint32_t pc, const uint16_t *words, unsigned n, uint32_t a0, unsigned sr) {
  memset(block, 0, BLOCK), memset(memory, 0, MEMORY), memset(journal, 0xEE, JOURNAL);
  for (uint32_t v = 2; v <= 64; v++) put(4 * v + 2, handler(v));
  may_write(rom, ROM, at_end, 1);
  for (unsigned i = 0; i < ROM; i++) rom[i] = (uint8_t)(0x80 + i);
  may_write(rom, ROM, at_end, 0);
  burn(pc, words, n);
  ibz_set(block, IBZ_D0, 0x12345678), ibz_set(block, IBZ_A0, a0), ibz_set(block, IBZ_A1, 0x600);
  ibz_set(block, IBZ_USP, USP), ibz_set(block, IBZ_SSP, SSP), ibz_set(block, IBZ_PC, pc), ibz_set(block, IBZ_SR, sr);
  lo = 0, hi = END;
  keep();
}

static struct ibz_step_answer step_at(uint32_t level, uint8_t vector, size_t mark) {
  return ibz_step_keeping(block, BLOCK, lo, hi, memory, MEMORY, rom, ROM, level, vector, journal, JOURNAL, mark);
}

static struct ibz_step_answer step(void) { return step_at(0, 0, 0); }

static struct ibz_try_answer try_from(uint32_t count, size_t mark) {
  return ibz_try(block, BLOCK, lo, hi, memory, MEMORY, rom, ROM, count, journal, JOURNAL, mark);
}

/* Whether undo leads back to what was before. */
static int undone(size_t mark) {
  const struct ibz_undo_answer a = ibz_undo(block, BLOCK, 0, END, memory, MEMORY, rom, ROM, journal, JOURNAL, mark);
  return a.number == 0 && a.mark == 0 && same_state();
}

/* Whether the step took a bus or address error by itself: nothing but the exception's slots, and nothing but its frame, was written. */
static int blamed(struct ibz_step_answer a, uint32_t vector, uint32_t information, uint32_t address, uint32_t op) {
  struct ibz_fault f;
  const uint32_t sr = ibz_get(old_block, IBZ_SR), ssp = ibz_get(old_block, IBZ_SSP), pc = ibz_get(old_block, IBZ_PC);
  int good = a.number == 0 && a.event == vector + 1 && a.clocks == 50 && ibz_get_fault(block, memory, MEMORY, &f);
  good = good && f.information == information && f.address == address && f.sr == sr && f.pc == pc + 2 && f.op == op;
  for (unsigned i = 0; i < IBZ_SSP; i++) good = good && ibz_get(block, i) == ibz_get(old_block, i);
  good = good && ibz_get(block, IBZ_SSP) == ssp - 14 && ibz_get(block, IBZ_PC) == handler(vector);
  good = good && ibz_get(block, IBZ_SR) == ((sr & 0x5FFFu) | 0x2000u) && ibz_get(block, IBZ_MODE) == 0;
  good = good && memcmp(memory, old_memory, ssp - 14) == 0 && memcmp(memory + ssp, old_memory + ssp, MEMORY - ssp) == 0;
  return undone(a.mark) && good;
}

/* Whether the step halted the machine, and changed nothing else. */
static int halted(struct ibz_step_answer a) {
  const int good = a.number == 0 && a.event == IBZ_EVENT_HALT && a.clocks == 0 && a.mark == 4 && memcmp(journal, "\x13\0\1", 4) == 0;
  return good && ibz_get(block, IBZ_MODE) == 2 && memcmp(memory, old_memory, MEMORY) == 0 && undone(a.mark);
}

/* ---- one access each, by an instruction in memory */

/* A0, or A7 where it is the stack's; what comes of it in user state: the fault's vector, information word and address, or 0 and D1. */
struct access {
  const char *what;
  uint16_t words[3];
  uint32_t a, vector, information, address, d1;
};

#define MOVE_B_READ {0x1210}  /* MOVE.B (A0),D1 */
#define MOVE_B_WRITE {0x1080} /* MOVE.B D0,(A0) */
#define MOVE_W_READ {0x3210}
#define MOVE_W_WRITE {0x3080}
#define MOVE_L_READ {0x2210}
#define MOVE_L_WRITE {0x2080}

static const struct access accesses[] = {
    /* reads; memory ends at 0x1000, so there is nothing before the ROM */
    {"byte read, the first", MOVE_B_READ, START, 0, 0, 0, 0x80},
    {"byte read, the second", MOVE_B_READ, START + 1, 0, 0, 0, 0x81},
    {"byte read, the last", MOVE_B_READ, END - 1, 0, 0, 0, 0xBF},
    {"byte read past the end", MOVE_B_READ, END, 2, 0x11, END, 0},
    {"byte read before the start", MOVE_B_READ, START - 1, 2, 0x11, START - 1, 0},
    {"byte read far past the end", MOVE_B_READ, 0xFFFFFF, 2, 0x11, 0xFFFFFF, 0},
    {"word read, the first", MOVE_W_READ, START, 0, 0, 0, 0x8081},
    {"word read, the last", MOVE_W_READ, END - 2, 0, 0, 0, 0xBEBF},
    {"word read past the end", MOVE_W_READ, END, 2, 0x11, END, 0},
    {"word read before the start", MOVE_W_READ, START - 2, 2, 0x11, START - 2, 0},
    {"odd word read", MOVE_W_READ, START + 1, 3, 0x11, START + 1, 0},
    {"odd word read, cut by the end", MOVE_W_READ, END - 1, 3, 0x11, END - 1, 0},
    {"odd word read, cut by the start", MOVE_W_READ, START - 1, 3, 0x11, START - 1, 0},
    {"odd word read past the end", MOVE_W_READ, END + 1, 3, 0x11, END + 1, 0},
    {"long read, the first", MOVE_L_READ, START, 0, 0, 0, 0x80818283u},
    {"long read, the last", MOVE_L_READ, END - 4, 0, 0, 0, 0xBCBDBEBFu},
    {"long read across the end", MOVE_L_READ, END - 2, 2, 0x11, END, 0},
    {"long read across the start", MOVE_L_READ, START - 2, 2, 0x11, START - 2, 0},
    {"odd long read across the end", MOVE_L_READ, END - 3, 3, 0x11, END - 3, 0},
    {"upper byte of A0", MOVE_W_READ, 0xAB000000u + START, 0, 0, 0, 0x8081},
    {"MOVE.W (A0)+,D1", {0x3218}, END - 2, 0, 0, 0, 0xBEBF},
    {"MOVE.W -(A0),D1", {0x3220}, END, 0, 0, 0, 0xBEBF},
    {"MOVE.W 2(A0),D1", {0x3228, 2}, START - 2, 0, 0, 0, 0x8081},
    {"MOVE.B 4(A0,D2.W),D1", {0x1230, 0x2004}, START, 0, 0, 0, 0x84},
    {"MOVE.W $F00002.L,D1", {0x3239, 0x00F0, 0x0002}, 0, 0, 0, 0, 0x8283},
    {"MOVEM.L (A0),D1-D2", {0x4CD0, 0x0006}, START, 0, 0, 0, 0x80818283u},
    {"MOVEM.W (A0)+,D1-D2", {0x4C98, 0x0006}, END - 4, 0, 0, 0, 0xFFFFBCBDu},
    {"MOVEM.L (A0),D1-D2, across the end", {0x4CD0, 0x0006}, END - 4, 2, 0x11, END, 0},
    {"MOVEP.W 0(A0),D1", {0x0308, 0}, START, 0, 0, 0, 0x8082},
    {"MOVEP.W 0(A0),D1, across the end", {0x0308, 0}, END - 2, 2, 0x11, END, 0},
    {"BTST D0,(A0)", {0x0110}, END - 1, 0, 0, 0, 0},
    {"TST.W (A0)", {0x4A50}, END - 2, 0, 0, 0, 0},
    {"CMPI.B #1,(A0)", {0x0C10, 1}, START, 0, 0, 0, 0},
    {"CMPM.W (A1)+,(A0)+", {0xB149}, START, 0, 0, 0, 0},
    /* writes: a bus error, of a write; odd is judged before */
    {"byte write, the first", MOVE_B_WRITE, START, 2, 0x01, START, 0},
    {"byte write, the second", MOVE_B_WRITE, START + 1, 2, 0x01, START + 1, 0},
    {"byte write, the last", MOVE_B_WRITE, END - 1, 2, 0x01, END - 1, 0},
    {"byte write past the end", MOVE_B_WRITE, END, 2, 0x01, END, 0},
    {"word write, the first", MOVE_W_WRITE, START, 2, 0x01, START, 0},
    {"word write, the last", MOVE_W_WRITE, END - 2, 2, 0x01, END - 2, 0},
    {"word write past the end", MOVE_W_WRITE, END, 2, 0x01, END, 0},
    {"odd word write", MOVE_W_WRITE, START + 1, 3, 0x01, START + 1, 0},
    {"odd word write, cut by the end", MOVE_W_WRITE, END - 1, 3, 0x01, END - 1, 0},
    {"long write, the first", MOVE_L_WRITE, START, 2, 0x01, START, 0},
    {"long write, the last", MOVE_L_WRITE, END - 4, 2, 0x01, END - 4, 0},
    {"long write across the end", MOVE_L_WRITE, END - 2, 2, 0x01, END - 2, 0},
    {"long write across the start", MOVE_L_WRITE, START - 2, 2, 0x01, START - 2, 0},
    {"odd long write", MOVE_L_WRITE, START + 1, 3, 0x01, START + 1, 0},
    {"MOVE.W D0,(A0)+", {0x30C0}, START, 2, 0x01, START, 0},
    {"MOVE.W D0,-(A0)", {0x3100}, START + 2, 2, 0x01, START, 0},
    {"MOVE.L D0,-(A0)", {0x2100}, START + 4, 2, 0x01, START, 0},
    {"MOVE.L D0,$F00010.L", {0x23C0, 0x00F0, 0x0010}, 0, 2, 0x01, START + 16, 0},
    {"MOVE.W (A0)+,(A0)+, the second written", {0x30D8}, START, 2, 0x01, START + 2, 0},
    {"MOVE.W (A1),(A0), of memory", {0x3091}, START, 2, 0x01, START, 0},
    {"MOVEM.W D0-D1,(A0)", {0x4890, 0x0003}, START, 2, 0x01, START, 0},
    {"MOVEM.L D0-D1,(A0), across the end", {0x48D0, 0x0003}, END - 4, 2, 0x01, END - 4, 0},
    {"MOVEM.W of no register,(A0)", {0x4890, 0}, START, 0, 0, 0, 0},
    {"MOVEM.W D0-D1,-(A0): D1 first", {0x48A0, 0xC000}, START + 4, 2, 0x01, START + 2, 0},
    {"MOVEM.L D0-D1,-(A0): D1's upper word first", {0x48E0, 0xC000}, START + 8, 2, 0x01, START + 4, 0},
    {"MOVEP.W D1,0(A0)", {0x0388, 0}, START, 2, 0x01, START, 0},
    /* read first, then written: the read is good in the ROM, and only there */
    {"ADDQ.W #1,(A0)", {0x5250}, START, 2, 0x01, START, 0},
    {"ADDQ.W #1,(A0), past the end", {0x5250}, END, 2, 0x11, END, 0},
    {"ADDQ.W #1,(A0), odd", {0x5250}, START + 1, 3, 0x11, START + 1, 0},
    {"ADDQ.B #1,(A0), the last", {0x5210}, END - 1, 2, 0x01, END - 1, 0},
    {"ADDQ.L #1,(A0), the last", {0x5290}, END - 4, 2, 0x01, END - 4, 0},
    {"ADDQ.L #1,(A0), across the end", {0x5290}, END - 2, 2, 0x11, END, 0},
    {"ADDQ.W #1,(A0)+", {0x5258}, START, 2, 0x01, START, 0},
    {"ADDQ.W #1,-(A0)", {0x5260}, END, 2, 0x01, END - 2, 0},
    {"CLR.B (A0)", {0x4210}, END - 1, 2, 0x01, END - 1, 0},
    {"CLR.L (A0)", {0x4290}, START, 2, 0x01, START, 0},
    {"CLR.L (A0), across the end", {0x4290}, END - 2, 2, 0x11, END, 0},
    {"ST (A0)", {0x50D0}, START, 2, 0x01, START, 0},
    {"SF (A0), past the end", {0x51D0}, END, 2, 0x11, END, 0},
    {"MOVE SR,(A0)", {0x40D0}, END - 2, 2, 0x01, END - 2, 0},
    {"MOVE SR,(A0), past the end", {0x40D0}, END, 2, 0x11, END, 0},
    {"TAS (A0)", {0x4AD0}, START, 2, 0x01, START, 0},
    {"NOT.L (A0)", {0x4690}, START, 2, 0x01, START, 0},
    {"NEGX.W (A0)", {0x4050}, START, 2, 0x01, START, 0},
    {"NBCD (A0)", {0x4810}, START, 2, 0x01, START, 0},
    {"BSET D0,(A0)", {0x01D0}, START + 1, 2, 0x01, START + 1, 0},
    {"BCHG #1,(A0)", {0x0850, 1}, START, 2, 0x01, START, 0},
    {"ASL.W (A0)", {0xE1D0}, START, 2, 0x01, START, 0},
    {"ROXR.W (A0)", {0xE4D0}, START, 2, 0x01, START, 0},
    {"ADD.W D0,(A0)", {0xD150}, START, 2, 0x01, START, 0},
    {"EOR.L D0,(A0)", {0xB190}, START, 2, 0x01, START, 0},
    {"ORI.B #1,(A0)", {0x0010, 1}, START, 2, 0x01, START, 0},
    {"ABCD -(A1),-(A0)", {0xC109}, START + 1, 2, 0x01, START, 0},
    {"SUBX.L -(A1),-(A0)", {0x9189}, START + 4, 2, 0x01, START, 0}};

/* The same of A7. In supervisor state that is SSP, so that a fault's frame would lie in the ROM too: the machine halts. */
static const struct access stacks[] = {
    {"BSR", {0x6102}, START + 4, 2, 0x01, START, 0},
    {"BSR, from the end", {0x6102}, END, 2, 0x01, END - 4, 0},
    {"BSR, across the start", {0x6102}, START + 2, 2, 0x01, START - 2, 0},
    {"BSR, odd", {0x6102}, START + 5, 3, 0x01, START + 1, 0},
    {"JSR $4F0.W", {0x4EB8, 0x4F0}, START + 4, 2, 0x01, START, 0},
    {"PEA $400.W", {0x4878, 0x400}, END, 2, 0x01, END - 4, 0},
    {"LINK A6,#-4", {0x4E56, 0xFFFC}, START + 4, 2, 0x01, START, 0},
    {"MOVE.W D0,-(A7)", {0x3F00}, START + 2, 2, 0x01, START, 0},
    {"MOVEM.L D0-D1,-(A7)", {0x48E7, 0xC000}, START + 8, 2, 0x01, START + 4, 0},
    {"MOVE.W (A7)+,D1", {0x321F}, END - 2, 0, 0, 0, 0xBEBF},
    {"MOVE.L (A7)+,D1", {0x221F}, START, 0, 0, 0, 0x80818283u},
    {"MOVE.W (A7)+,D1, past the end", {0x321F}, END, 2, 0x11, END, 0},
    {"RTS, across the end", {0x4E75}, END - 2, 2, 0x11, END, 0}};

static void begin(const struct access *x, int stack, unsigned sr, uint32_t from, uint32_t to) {
  set_up(CODE, x->words, 3, x->a, sr);
  if (stack) ibz_set(block, IBZ_A0, 0), ibz_set(block, sr != 0 ? IBZ_SSP : IBZ_USP, x->a);
  lo = from, hi = to;
  keep();
}

/* One of them; and by all other calls, which lead to the same. */
static int as_told(const struct access *x, int stack, unsigned sr, uint32_t from, uint32_t to) {
  static uint8_t now_block[BLOCK], now_memory[MEMORY];
  begin(x, stack, sr, from, to);
  const struct ibz_step_answer a = step();
  memcpy(now_block, block, BLOCK), memcpy(now_memory, memory, MEMORY);
  int good = x->vector == 0 ? a.number == 0 && a.event == 0 && ibz_get(block, IBZ_D1) == x->d1 && undone(a.mark)
             : stack && sr != 0 ? halted(a)
                                : blamed(a, x->vector, x->information | (sr != 0 ? 4u : 0u), x->address, x->words[0]);
  for (unsigned call = 0; call < (sr == 0 ? 4 : 3); call++) {
    begin(x, stack, sr, from, to);
    size_t mark = a.mark;
    if (call == 0) mark = ibz_step(block, BLOCK, lo, hi, memory, MEMORY, rom, ROM, 0, 0, journal, JOURNAL, 0).mark;
    if (call == 1) mark = ibz_run(block, BLOCK, lo, hi, memory, MEMORY, rom, ROM, 1, 1, journal, JOURNAL, 0).mark;
    if (call == 2) mark = ibz_run_keeping(block, BLOCK, lo, hi, memory, MEMORY, rom, ROM, 1, 1, journal, JOURNAL, 0).mark;
    if (call == 3) {
      const struct ibz_try_answer t = try_from(1, 0);
      mark = t.mark;
      good = good && t.end == (x->vector == 0 ? IBZ_END_SPENT : IBZ_END_EXCEPTION) && t.vector == x->vector && t.steps == 1;
    }
    good = good && mark == a.mark && memcmp(block, now_block, BLOCK) == 0 && memcmp(memory, now_memory, MEMORY) == 0;
  }
  return good;
}

static void each(const struct access *x, size_t n, int stack) {
  for (; n > 0; n--, x++) { /* in user state; as supervisor, in all and in no window */
    const int good = as_told(x, stack, 0, 0, END) && as_told(x, stack, SUPERVISOR, 0, END) && as_told(x, stack, SUPERVISOR, 0, 0);
    if (!good) puts(x->what);
    EXPECT(good);
  }
}

/* ---- instructions in the ROM */

static void fetches(unsigned sr) {
  static const uint16_t moveq[] = {0x7201}, move[] = {0x323C, 1}, move_long[] = {0x23FC, 0, 1, 0, 0x500}, to_itself[] = {0x3080};
  static const uint16_t calls[] = {0x6102, 0x60FE, 0x4E75}, jump[] = {0x4EF9, 0x00F0, 0}, jump_odd[] = {0x4EF9, 0x00F0, 1};
  static const uint16_t relative[] = {0x323A, 0x3C}, relative_past[] = {0x323A, 0x3E}, relative_odd[] = {0x323A, 1};
  static const uint16_t jump_out[] = {0x4EF9, 0x00F0, ROM};
  static const uint16_t back[] = {0x0000, 0x04F0}, back_with_ccr[] = {0x001F, 0x0000, 0x04F0}, rts[] = {0x4E75}, rtr[] = {0x4E77}, unlk[] = {0x4E5E};
  static const struct { uint32_t pc, vector; } ops[] = {{START, 0}, {START + 2, 0}, {END - 2, 0}, {0xAB000000u + START, 0}, {END, 2},
                                                        {START - 2, 2}, {START + 1, 3}, {END - 1, 3}, {START - 1, 3}, {0xFFFFFE, 2}};
  const uint32_t program = sr != 0 ? 0x16 : 0x12, data_write = sr != 0 ? 0x05 : 0x01, stack = sr != 0 ? SSP : USP;
  const unsigned a7 = sr != 0 ? IBZ_SSP : IBZ_USP;
  struct ibz_step_answer a;
  for (unsigned i = 0; i < sizeof ops / sizeof *ops; i++) {
    set_up(CODE, moveq, 1, 0, sr), ibz_set(block, IBZ_PC, ops[i].pc), keep();
    if (ops[i].vector == 0) burn(ops[i].pc & 0xFFFFFFu, moveq, 1);
    a = step();
    if (ops[i].vector != 0) EXPECT(blamed(a, ops[i].vector, program, ops[i].pc, 0));
    else EXPECT(a.event == 0 && a.clocks == 4 && ibz_get(block, IBZ_D1) == 1 && ibz_get(block, IBZ_PC) == ops[i].pc + 2 && undone(a.mark));
  }
  set_up(END - 4, move, 2, 0, sr); /* extension words: to the ROM's end, and past it */
  a = step();
  EXPECT(a.event == 0 && ibz_get(block, IBZ_D1) == 1 && ibz_get(block, IBZ_PC) == END && undone(a.mark));
  set_up(END - 2, move, 1, 0, sr);
  EXPECT(blamed(step(), 2, program, END, 0x323C));
  set_up(END - 10, move_long, 5, 0, sr);
  a = step();
  EXPECT(a.event == 0 && word_at(0x500) == 0 && word_at(0x502) == 1 && ibz_get(block, IBZ_PC) == END && undone(a.mark));
  for (unsigned words = 1; words < 5; words++) {
    set_up(END - 2 * words, move_long, words, 0, sr);
    EXPECT(blamed(step(), 2, program, END, 0x23FC));
  }
  set_up(START, relative, 2, 0, sr); /* MOVE.W d(PC),D1: the last word; past it; odd */
  a = step();
  EXPECT(a.event == 0 && ibz_get(block, IBZ_D1) == 0xBEBF && undone(a.mark));
  set_up(START, relative_past, 2, 0, sr);
  EXPECT(blamed(step(), 2, program, END, 0x323A));
  set_up(START, relative_odd, 2, 0, sr);
  EXPECT(blamed(step(), 3, program, START + 3, 0x323A));
  set_up(START, to_itself, 1, START, sr); /* over its own instruction */
  EXPECT(blamed(step(), 2, data_write, START, 0x3080));
  set_up(START, calls, 3, 0, sr); /* BSR, RTS, and a branch to itself: three steps, and back */
  const struct ibz_run_answer r = ibz_run_keeping(block, BLOCK, lo, hi, memory, MEMORY, rom, ROM, 3, 1, journal, JOURNAL, 0);
  EXPECT(r.number == 0 && r.reason == IBZ_REASON_BUDGET && r.steps == 3 && r.clocks == 18 + 16 + 10 && ibz_get(block, IBZ_PC) == START + 2);
  EXPECT(word_at(stack - 4) == 0xF0 && word_at(stack - 2) == 2 && ibz_get(block, a7) == stack);
  const struct ibz_back_answer b = ibz_take_back(block, BLOCK, lo, hi, memory, MEMORY, rom, ROM, journal, JOURNAL, r.mark, 3, 1, 2);
  EXPECT(b.number == 0 && b.undone == 3 && b.mark == 0 && same_state());
  set_up(CODE, jump, 3, 0, sr); /* jumps into it from memory: even, odd, and to where nothing is, which the next step finds */
  a = step();
  EXPECT(a.event == 0 && ibz_get(block, IBZ_PC) == START && undone(a.mark));
  set_up(CODE, jump_odd, 3, 0, sr);
  EXPECT(blamed(step(), 3, program, START + 1, 0x4EF9));
  set_up(CODE, jump_out, 3, 0, sr);
  EXPECT(step().event == 0 && ibz_get(block, IBZ_PC) == END);
  keep();
  EXPECT(blamed(step(), 2, program, END, 0));
  set_up(CODE, rts, 1, 0, sr), burn(START + 16, back, 2), ibz_set(block, a7, START + 16), keep(); /* a stack in the ROM, to be read */
  a = step();
  EXPECT(a.event == 0 && ibz_get(block, IBZ_PC) == 0x4F0 && ibz_get(block, a7) == START + 20 && undone(a.mark));
  set_up(CODE, rtr, 1, 0, sr), burn(END - 6, back_with_ccr, 3), ibz_set(block, a7, END - 6), keep();
  a = step();
  EXPECT(a.event == 0 && ibz_get(block, IBZ_PC) == 0x4F0 && ibz_get(block, IBZ_SR) == (sr | 0x1Fu) && ibz_get(block, a7) == END && undone(a.mark));
  set_up(CODE, unlk, 1, 0, sr), ibz_set(block, IBZ_A6, START), keep();
  a = step();
  EXPECT(a.event == 0 && ibz_get(block, IBZ_A6) == 0x80818283u && ibz_get(block, a7) == START + 4 && undone(a.mark));
}

/* ---- the window */

static void windows(void) {
  enum { THERE = START + 16 }; /* an instruction in the ROM */
  static const struct { uint32_t pc; uint16_t words[2]; uint32_t a, lo, hi, vector, information, address, d1; } cases[] = {
      /* the window of a reset: nothing of the ROM */
      {CODE, MOVE_B_READ, START, 0, MEMORY, 2, 0x11, START, 0},
      {CODE, MOVE_B_WRITE, START, 0, MEMORY, 2, 0x01, START, 0},
      {START, {0x7201}, 0, 0, MEMORY, 2, 0x12, START, 0},
      /* hi in the ROM */
      {CODE, MOVE_W_READ, START, 0, START + 2, 0, 0, 0, 0x8081},
      {CODE, MOVE_W_READ, START + 2, 0, START + 2, 2, 0x11, START + 2, 0},
      {CODE, MOVE_B_READ, START + 1, 0, START + 2, 0, 0, 0, 0x81},
      {CODE, MOVE_B_READ, START, 0, START + 1, 0, 0, 0, 0x80},
      {CODE, MOVE_B_READ, START + 1, 0, START + 1, 2, 0x11, START + 1, 0},
      {CODE, MOVE_W_READ, START, 0, START + 1, 2, 0x11, START, 0},
      {CODE, MOVE_B_READ, END - 2, 0, END - 1, 0, 0, 0, 0xBE},
      {CODE, MOVE_W_READ, END - 2, 0, END - 1, 2, 0x11, END - 2, 0},
      {CODE, MOVE_L_READ, END - 4, 0, END - 2, 2, 0x11, END - 2, 0},
      {CODE, MOVE_W_READ, START + 1, 0, START, 3, 0x11, START + 1, 0},
      /* hi between memory and ROM: there is nothing, but all of memory */
      {CODE, MOVE_B_READ, MEMORY - 1, 0, MEMORY + 1, 0, 0, 0, 0},
      {CODE, MOVE_B_READ, MEMORY, 0, MEMORY + 1, 2, 0x11, MEMORY, 0},
      {CODE, MOVE_W_READ, START, 0, START, 2, 0x11, START, 0},
      /* a write fails wherever the window ends; what is read first is read in it */
      {CODE, MOVE_W_WRITE, START, 0, START, 2, 0x01, START, 0},
      {CODE, {0x5250}, START, 0, START, 2, 0x11, START, 0},
      {CODE, {0x5250}, START, 0, START + 2, 2, 0x01, START, 0},
      /* lo in the ROM: memory is outside */
      {THERE, MOVE_B_READ, START + 2, START + 2, END, 0, 0, 0, 0x82},
      {THERE, MOVE_B_READ, START + 1, START + 2, END, 2, 0x11, START + 1, 0},
      {THERE, MOVE_B_READ, START + 3, START + 3, END, 0, 0, 0, 0x83},
      {THERE, MOVE_W_READ, START + 2, START + 3, END, 2, 0x11, START + 2, 0},
      {THERE, MOVE_W_READ, START + 4, START + 3, END, 0, 0, 0, 0x8485},
      {THERE, MOVE_L_READ, START, START + 2, END, 2, 0x11, START, 0},
      {THERE, MOVE_B_READ, 0x400, START, END, 2, 0x11, 0x400, 0},
      {THERE, MOVE_B_WRITE, 0x400, START, END, 2, 0x01, 0x400, 0},
      /* operation word and extension words */
      {THERE, {0x7201}, 0, THERE, THERE + 2, 0, 0, 0, 1},
      {THERE, {0x7201}, 0, THERE + 1, END, 2, 0x12, THERE, 0},
      {THERE, {0x7201}, 0, 0, THERE + 1, 2, 0x12, THERE, 0},
      {THERE, {0x323C, 1}, 0, THERE, THERE + 4, 0, 0, 0, 1},
      {THERE, {0x323C, 1}, 0, THERE, THERE + 3, 2, 0x12, THERE + 2, 0},
      {THERE, {0x323C, 1}, 0, THERE, THERE + 2, 2, 0x12, THERE + 2, 0}};
  for (unsigned i = 0; i < sizeof cases / sizeof *cases; i++) {
    set_up(cases[i].pc, cases[i].words, 2, cases[i].a, 0), lo = cases[i].lo, hi = cases[i].hi;
    const struct ibz_step_answer a = step();
    const uint32_t op = cases[i].information == 0x12 && cases[i].address == cases[i].pc ? 0 : cases[i].words[0];
    const int good = cases[i].vector != 0 ? blamed(a, cases[i].vector, cases[i].information, cases[i].address, op)
                                          : a.number == 0 && a.event == 0 && ibz_get(block, IBZ_D1) == cases[i].d1 && undone(a.mark);
    if (!good) printf("window %u\n", i);
    EXPECT(good);
  }
}

/* ---- exceptions */

static void exceptions(void) {
  static const uint16_t moveq[] = {0x7201}, trap[] = {0x4E40}, rte[] = {0x4E73}, to_rom[] = {0x0000, 0x00F0, 0x0000};
  /* where a frame would lie in the ROM, wholly or in part, the machine halts; PC has moved on for TRAP and trace, whose instruction is done */
  static const struct { uint16_t word; unsigned sr; uint32_t level, a0, moved, clocks; } halts[] = {
      {0x4AFC, 0, 0, 0, 0, 0},          {0xA000, 0, 0, 0, 0, 0}, {0x4E73, 0, 0, 0, 0, 0},          {0x3080, 0, 0, START, 0, 0},
      {0x3210, 0, 0, 1, 0, 0},          {0x7201, 0, 4, 0, 0, 0}, {0x7201, SUPERVISOR, 7, 0, 0, 0}, {0x3210, SUPERVISOR, 0, END, 0, 0},
      {0x4E40, 0, 0, 0, 1, 0},          {0x7201, TRACE, 0, 0, 1, 4}};
  static const uint32_t stacks_in_rom[] = {START + 2, START + 4, START + 6, START + 14, END - 2, END, END + 2};
  struct ibz_step_answer a;
  for (unsigned i = 0; i < sizeof halts / sizeof *halts; i++)
    for (unsigned k = 0; k < sizeof stacks_in_rom / sizeof *stacks_in_rom; k++) {
      set_up(CODE, &halts[i].word, 1, halts[i].a0, halts[i].sr), ibz_set(block, IBZ_SSP, stacks_in_rom[k]), keep();
      a = step_at(halts[i].level, 64, 0);
      if (halts[i].moved == 0) {
        EXPECT(halted(a));
      } else {
        EXPECT(a.event == IBZ_EVENT_HALT && a.clocks == halts[i].clocks && ibz_get(block, IBZ_MODE) == 2 && ibz_get(block, IBZ_PC) == CODE + 2);
        EXPECT(memcmp(memory, old_memory, MEMORY) == 0 && ibz_get(block, IBZ_SSP) == stacks_in_rom[k] && undone(a.mark));
      }
    }
  /* a handler in the ROM, from user state and in no window; its RTE, by a frame in memory; and by one in the ROM, to be read */
  set_up(CODE, trap, 1, 0, 0), burn(START, moveq, 1), burn(START + 2, rte, 1), put(4 * 32, 0xF0), put(4 * 32 + 2, 0), hi = CODE + 2, keep();
  a = step();
  EXPECT(a.event == 33 && ibz_get(block, IBZ_PC) == START && ibz_get(block, IBZ_SSP) == SSP - 6 && word_at(SSP - 2) == CODE + 2);
  a = step_at(0, 0, a.mark);
  EXPECT(a.event == 0 && ibz_get(block, IBZ_D1) == 1);
  a = step_at(0, 0, a.mark);
  EXPECT(a.event == 0 && ibz_get(block, IBZ_PC) == CODE + 2 && ibz_get(block, IBZ_SR) == 0 && ibz_get(block, IBZ_SSP) == SSP);
  const struct ibz_back_answer b = ibz_take_back(block, BLOCK, lo, hi, memory, MEMORY, rom, ROM, journal, JOURNAL, a.mark, 3, 0, 0);
  EXPECT(b.number == 0 && b.undone == 3 && b.mark == 0 && same_state());
  set_up(CODE, rte, 1, 0, SUPERVISOR), burn(END - 6, to_rom, 3), ibz_set(block, IBZ_SSP, END - 6), keep();
  a = step();
  EXPECT(a.event == 0 && ibz_get(block, IBZ_PC) == START && ibz_get(block, IBZ_SR) == 0 && ibz_get(block, IBZ_SSP) == END && undone(a.mark));
  set_up(END - 2, moveq, 1, 0, 0); /* PC in the ROM is saved: by an interrupt its own, by a trace the next */
  a = step_at(4, 64, 0);
  EXPECT(a.event == 65 && ibz_get(block, IBZ_PC) == handler(64) && word_at(SSP - 4) == 0xF0 && word_at(SSP - 2) == ROM - 2 && undone(a.mark));
  set_up(END - 2, moveq, 1, 0, TRACE);
  a = step();
  EXPECT(a.event == 10 && ibz_get(block, IBZ_D1) == 1 && word_at(SSP - 4) == 0xF0 && word_at(SSP - 2) == ROM && undone(a.mark));
}

/* ---- memory up to the ROM, and a ROM up to the last address */

static void large(void) {
  enum { LAST = 0xFFFFFE };
  /* bytes of memory: 1, 2 at its start, 0x11, 0x22 at its end; of the ROM 0x80, 0x81 at its start, and its last word */
  static const struct { uint16_t words[2]; uint32_t pc, a, lo, hi, sr; uint16_t last; uint32_t vector, information, address, d1; } cases[] = {
      {MOVE_B_READ, CODE, START - 1, 0, START, 0, 0, 0, 0, 0, 0x22},
      {MOVE_W_READ, CODE, START - 2, 0, START, 0, 0, 0, 0, 0, 0x1122},
      {MOVE_W_READ, CODE, START - 1, 0, LAST, 0, 0, 3, 0x11, START - 1, 0},
      {MOVE_L_READ, CODE, START - 2, 0, LAST, 0, 0, 0, 0, 0, 0x11228081u}, /* across both */
      {MOVE_L_READ, CODE, START - 2, 0, 0, SUPERVISOR, 0, 0, 0, 0, 0x11228081u},
      {MOVE_L_READ, CODE, START - 2, 0, START, 0, 0, 2, 0x11, START, 0},
      {MOVE_L_READ, CODE, START - 2, 0, START + 1, 0, 0, 2, 0x11, START, 0},
      {MOVE_L_WRITE, CODE, START - 2, 0, LAST, 0, 0, 2, 0x01, START, 0},
      {MOVE_W_WRITE, CODE, START - 2, 0, LAST, 0, 0, 0, 0, 0, 0},
      {{0x2100}, CODE, START + 2, 0, LAST, 0, 0, 2, 0x01, START, 0},         /* MOVE.L D0,-(A0) */
      {{0x48E0, 0xC000}, CODE, START + 2, 0, LAST, 0, 0, 2, 0x01, START, 0}, /* MOVEM.L D0-D1,-(A0) */
      {{0x5290}, CODE, START - 2, 0, LAST, 0, 0, 2, 0x01, START, 0},         /* ADDQ.L #1,(A0): both words are read */
      {{0x5290}, CODE, START - 2, 0, START, 0, 0, 2, 0x11, START, 0},
      {{0x4878, 0x400}, CODE, 0, 0, LAST, SUPERVISOR, 0, 0, 0, 0, 0},        /* PEA $400.W, at memory's end */
      {{0x323C, 0x8081}, START - 2, 0, 0, LAST, 0, 0, 0, 0, 0, 0x8081},      /* its second word is the ROM's first */
      {{0x323C, 0x8081}, START - 2, 0, 0, START, 0, 0, 2, 0x12, START, 0},
      {MOVE_B_READ, CODE, LAST + 1, 0, LAST + 2, 0, 0x9ABC, 0, 0, 0, 0xBC},
      {MOVE_W_READ, CODE, LAST, 0, LAST + 2, 0, 0x9ABC, 0, 0, 0, 0x9ABC},
      {MOVE_W_READ, CODE, LAST, 0, LAST + 1, 0, 0x9ABC, 2, 0x11, LAST, 0},
      {MOVE_L_READ, CODE, LAST, 0, LAST + 2, 0, 0x9ABC, 0, 0, 0, 0x9ABC0102u}, /* and round to address 0 */
      {MOVE_L_READ, CODE, LAST, 0, 0, SUPERVISOR, 0x9ABC, 0, 0, 0, 0x9ABC0102u},
      {MOVE_L_READ, CODE, LAST, 1, LAST + 2, 0, 0x9ABC, 2, 0x11, 0, 0},
      {MOVE_L_WRITE, CODE, LAST, 0, LAST + 2, 0, 0x9ABC, 2, 0x01, LAST, 0},
      {{0x2100}, CODE, 2, 0, LAST + 2, 0, 0x9ABC, 2, 0x01, LAST, 0},
      {{0x323C, 0x0102}, LAST, 0, 0, LAST + 2, 0, 0x323C, 0, 0, 0, 0x0102}};
  uint8_t *const m = guarded(START, at_end), *const r = guarded(IBZ_ROM_MOST, at_end);
  struct ibz_fault f;
  for (unsigned i = 0; i < sizeof cases / sizeof *cases; i++) {
    const uint32_t sr = cases[i].sr, pc = cases[i].pc, event = cases[i].vector == 0 ? 0 : cases[i].vector + 1;
    memset(block, 0, BLOCK), memset(m, 0, MEMORY), memset(m + START - 16, 0, 16);
    m[0] = 1, m[1] = 2, m[START - 2] = 0x11, m[START - 1] = 0x22;
    may_write(r, IBZ_ROM_MOST, at_end, 1);
    r[0] = 0x80, r[1] = 0x81, r[IBZ_ROM_MOST - 2] = (uint8_t)(cases[i].last >> 8), r[IBZ_ROM_MOST - 1] = (uint8_t)cases[i].last;
    may_write(r, IBZ_ROM_MOST, at_end, 0);
    for (unsigned k = 0; k < 4 && pc + k < START; k++) m[pc + k] = (uint8_t)(cases[i].words[k / 2] >> (k % 2 == 0 ? 8 : 0));
    ibz_set(block, IBZ_D0, 0x12345678), ibz_set(block, IBZ_A0, cases[i].a), ibz_set(block, IBZ_SSP, sr != 0 ? START : SSP);
    ibz_set(block, IBZ_PC, pc), ibz_set(block, IBZ_SR, sr);
    memcpy(old_block, block, BLOCK), memcpy(old_memory, m, MEMORY - 16), memcpy(old_memory + MEMORY - 16, m + START - 16, 16);
    const struct ibz_step_answer a =
        ibz_step_keeping(block, BLOCK, cases[i].lo, cases[i].hi, m, START, r, IBZ_ROM_MOST, 0, 0, journal, JOURNAL, 0);
    int good = a.number == 0 && a.event == event && (event != 0 || (ibz_get(block, IBZ_D1) == cases[i].d1));
    if (event != 0) good = good && ibz_get_fault(block, m, START, &f) && f.address == cases[i].address && f.information == cases[i].information;
    if (event != 0) good = good && memcmp(old_memory + MEMORY - 16, m + START - 16, 16) == 0; /* the word that could be written was not */
    if (event == 0 && pc == LAST) good = good && ibz_get(block, IBZ_PC) == 0x1000002u;
    if (cases[i].words[0] == 0x3080) good = good && m[START - 2] == 0x56 && m[START - 1] == 0x78;
    if (cases[i].words[0] == 0x4878) good = good && ibz_get(block, IBZ_SSP) == START - 4 && m[START - 2] == 4 && m[START - 1] == 0;
    const struct ibz_undo_answer u = ibz_undo(block, BLOCK, 0, LAST + 2, m, START, r, IBZ_ROM_MOST, journal, JOURNAL, a.mark);
    good = good && u.number == 0 && u.mark == 0 && memcmp(block, old_block, BLOCK) == 0 && memcmp(m, old_memory, MEMORY - 16) == 0;
    good = good && memcmp(m + START - 16, old_memory + MEMORY - 16, 16) == 0;
    if (!good) printf("large %u\n", i);
    EXPECT(good);
  }
  /* a frame that ends at memory's end is written, one that reaches into the ROM is not, and nothing of it */
  for (uint32_t ssp = START; ssp <= START + 4; ssp += 2) {
    memset(block, 0, BLOCK), memset(m + START - 16, 0x5A, 16);
    m[CODE] = 0x4A, m[CODE + 1] = 0xFC, ibz_set(block, IBZ_PC, CODE), ibz_set(block, IBZ_SSP, ssp);
    const struct ibz_step_answer a = ibz_step_keeping(block, BLOCK, 0, START, m, START, r, 2, 0, 0, journal, JOURNAL, 0);
    EXPECT(a.event == (ssp == START ? 5u : IBZ_EVENT_HALT) && m[START - 7] == 0x5A && m[START - 6] == (ssp == START ? 0 : 0x5A));
    EXPECT(m[START - 1] == (ssp == START ? (uint8_t)CODE : 0x5A) && ibz_get(block, IBZ_SSP) == (ssp == START ? START - 6 : ssp));
  }
  /* records: 0xEFFFFF is memory's, 0xF00000 is no place of it, and is none of a memory that ends before */
  static const uint8_t last[] = {0x07, 0xBF, 0xFF, 0xFF, 0x22, 0x00, 0x01}, first[] = {0x07, 0xC0, 0x80, 0x80, 0x22, 0x00, 0x01};
  memset(block, 0, BLOCK), memcpy(journal, last, 7), m[START - 1] = 9;
  EXPECT(ibz_undo(block, BLOCK, 0, 0, m, START, r, IBZ_ROM_MOST, journal, JOURNAL, 7).number == 0 && m[START - 1] == 0x22);
  memcpy(journal, first, 7);
  const struct ibz_undo_answer u = ibz_undo(block, BLOCK, 0, 0, m, START, r, IBZ_ROM_MOST, journal, JOURNAL, 7);
  EXPECT(u.number == IBZ_BAD_RECORD && u.mark == 7 && r[0] == 0x80);
}

/* ---- records that name the ROM: undo refuses them, and a step that would have to drop one */

static void records(void) {
  static const struct { unsigned n; uint8_t bytes[9]; } bad[] = {
      {7, {0x07, 0xC0, 0x80, 0x80, 0x00, 0x00, 0x01}},              /* its first byte, which holds 0x80, was 0 */
      {8, {0x07, 0xC0, 0x80, 0x80, 0x01, 0x80, 0x00, 0x01}},        /* was 0x80, as it is */
      {7, {0x07, 0xC0, 0x80, 0xBF, 0x00, 0x00, 0x01}},              /* its last byte */
      {7, {0x07, 0xC0, 0x80, 0xC0, 0x00, 0x00, 0x01}},              /* past its end */
      {9, {0x01, 0x09, 0x07, 0xC0, 0x80, 0x80, 0x00, 0x00, 0x02}}}; /* byte 1 of memory beside it */
  static const uint16_t moveq[] = {0x7201};
  for (unsigned i = 0; i < sizeof bad / sizeof *bad; i++)
    for (unsigned sr = 0; sr <= SUPERVISOR; sr += SUPERVISOR) {
      const size_t n = bad[i].n;
      set_up(CODE, moveq, 1, 0, sr), memcpy(journal, bad[i].bytes, n), keep();
      const struct ibz_undo_answer u = ibz_undo(block, BLOCK, lo, hi, memory, MEMORY, rom, ROM, journal, JOURNAL, n);
      EXPECT(u.number == IBZ_BAD_RECORD && u.mark == n && kept());
      const struct ibz_back_answer b = ibz_take_back(block, BLOCK, lo, hi, memory, MEMORY, rom, ROM, journal, JOURNAL, n, 1, 5, 6);
      EXPECT(b.number == IBZ_BAD_RECORD && b.undone == 0 && b.mark == n && b.lo == lo && b.hi == hi && kept());
      const struct ibz_step_answer s = ibz_step(block, BLOCK, lo, hi, memory, MEMORY, rom, ROM, 0, 0, journal, 536, n);
      EXPECT(s.number == IBZ_BAD_RECORD && s.mark == n && s.moved == 0 && s.dropped == 0 && kept());
      const struct ibz_run_answer r = ibz_run(block, BLOCK, lo, hi, memory, MEMORY, rom, ROM, 1, 1, journal, 536, n);
      EXPECT(r.number == 0 && r.reason == IBZ_REASON_RECORD && r.steps == 0 && r.mark == n && kept());
    }
}

/* ---- a reset that starts in the ROM, and tries of a program there */

static void tries(void) {
  /* D1 is counted down from 3 in a loop, and its last values stand in memory; then it is to stand in the ROM */
  static const uint16_t pattern[] = {0x7203, 0x31C1, 0x0580, 0x5341, 0x66F8, 0x33C1, 0x00F0, 0x0000}, moveq[] = {0x7201};
  set_up(START, moveq, 1, 0, 0), put(2, 0x800), put(4, 0xF0), put(6, 0);
  const struct ibz_reset_answer r = ibz_reset(block, BLOCK, memory, MEMORY, rom, ROM);
  EXPECT(r.number == 0 && r.lo == 0 && r.hi == MEMORY && ibz_get(block, IBZ_PC) == START && ibz_get(block, IBZ_SR) == 0x2700);
  const struct ibz_step_answer s = ibz_step(block, BLOCK, r.lo, r.hi, memory, MEMORY, rom, ROM, 0, 0, journal, JOURNAL, 0);
  EXPECT(s.number == 0 && s.event == 0 && ibz_get(block, IBZ_D1) == 1 && ibz_get(block, IBZ_PC) == START + 2); /* as supervisor */
  for (unsigned i = 0; i < 3; i++) {
    set_up(START, pattern, 8, 0, 0), lo = i == 1 ? 0x580 : 0;
    if (i == 2) hi = MEMORY;
    const struct ibz_try_answer a = try_from(10, 0);
    if (i == 2) { /* the reset's window: its first word is outside */
      EXPECT(a.end == IBZ_END_EXCEPTION && a.vector == 2 && a.steps == 1);
    } else {
      EXPECT(a.end == IBZ_END_SPENT && a.number == 0 && a.steps == 10 && ibz_get(block, IBZ_PC) == START + 10 && word_at(0x580) == 1);
    }
    struct ibz_back_answer b = ibz_take_back(block, BLOCK, lo, hi, memory, MEMORY, rom, ROM, journal, JOURNAL, a.mark, a.steps, 7, 9);
    EXPECT(b.number == 0 && b.undone == a.steps && b.mark == 0 && b.lo == 7 && b.hi == 9 && same_state());
    const struct ibz_try_answer c = try_from(1000, 0);
    struct ibz_fault f = {0, 0, 0, 0, 0};
    EXPECT(c.end == IBZ_END_EXCEPTION && c.number == 0 && c.vector == 2 && c.steps == (i == 2 ? 1u : 11u));
    EXPECT(ibz_get_fault(block, memory, MEMORY, &f) && f.address == START && f.information == (i == 2 ? 0x12u : 0x01u));
    EXPECT(f.op == (i == 2 ? 0u : 0x33C1u) && f.pc == (i == 2 ? START + 2u : START + 12u));
    b = ibz_take_back(block, BLOCK, lo, hi, memory, MEMORY, rom, ROM, journal, JOURNAL, c.mark, c.steps, 7, 9);
    EXPECT(b.number == 0 && b.undone == c.steps && b.mark == 0 && same_state());
  }
}

/* ---- a full journal: ADDQ #1,D1 and a branch to it, in the ROM. Their records have 10 bytes, once D1 is above 127, and 7 */

static void full(unsigned sr) {
  enum { SHORT = 600 }; /* 64 bytes and 536 */
  static const uint16_t pattern[] = {0x5241, 0x60FC};
  for (unsigned runs = 0; runs < 2; runs++) { /* by steps, and by a run */
    set_up(START, pattern, 2, 0, sr);
    uint64_t dropped = 0, clocks = 0;
    size_t mark = 0;
    for (unsigned i = 0; i < 1000 && runs == 0; i++) {
      const struct ibz_step_answer a = ibz_step(block, BLOCK, lo, hi, memory, MEMORY, rom, ROM, 0, 0, journal, SHORT, mark);
      EXPECT(a.number == 0);
      mark = a.mark, dropped += a.dropped, clocks += a.clocks;
    }
    if (runs) {
      const struct ibz_run_answer a = ibz_run(block, BLOCK, lo, hi, memory, MEMORY, rom, ROM, 1000, 1, journal, SHORT, 0);
      EXPECT(a.number == 0 && a.steps == 1000 && a.reason == IBZ_REASON_BUDGET);
      mark = a.mark, dropped = a.dropped, clocks = a.clocks;
    }
    EXPECT(ibz_get(block, IBZ_D1) == 500 && ibz_get(block, IBZ_PC) == START && clocks == 500 * (4 + 10));
    EXPECT(mark == 4 * 10 + 4 * 7 && dropped == 1000 - 8); /* of 61 bytes, the most that leave 536, and the last */
    const struct ibz_back_answer b = ibz_take_back(block, BLOCK, lo, hi, memory, MEMORY, rom, ROM, journal, SHORT, mark, 9, 5, 6);
    EXPECT(b.number == IBZ_NO_RECORD && b.undone == 8 && b.mark == 0 && ibz_get(block, IBZ_D1) == 496 && ibz_get(block, IBZ_PC) == START);
  }
}

int main(void) {
  for (at_end = 0; at_end < 2; at_end++) {
    block = guarded(BLOCK, at_end), memory = guarded(MEMORY, at_end), journal = guarded(JOURNAL, at_end), rom = guarded(ROM, at_end);
    each(accesses, sizeof accesses / sizeof *accesses, 0);
    each(stacks, sizeof stacks / sizeof *stacks, 1);
    fetches(0);
    fetches(SUPERVISOR);
    windows();
    exceptions();
    large();
    records();
    tries();
    full(0);
    full(SUPERVISOR);
  }
  return verdict("rom");
}
