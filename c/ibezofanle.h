/* ibezofanle.h - an MC68000 whose every step can be taken back: reset, step, run and undo, a ROM beside memory, a fence to try programs in,
 * and journals for posting, for C11 and C++17.
 *
 * You lend six things, and keep them between calls:
 *
 *   block    80 bytes: the processor's state, twenty slots of four bytes, high byte first (enum ibz_slot)
 *   memory   the 68000's memory, from address 0; its length is even, from 1,024 to 16,777,216, beside a ROM to 15,728,640
 *   rom      a ROM, from address 0xF00000 on, which is only read; its length is even, from 0, which is none, to 1,048,576. Who has none
 *            gives IBZ_NO_ROM in the place of the two arguments
 *   journal  bytes for the records by which steps are taken back, the oldest first; a step wants 536 of them free
 *   mark     how many bytes of the journal are in use. 0 at first; then always the mark that the last call returned
 *   window   two numbers, lo and hi: the addresses, from lo to below hi, that a program in user state can reach. ibz_reset tells them,
 *            0 and memory's length, which is all of memory; no step and no undo changes them. The library does not keep them: each
 *            call is given them, and another window is set by giving it another. hi is at most memory's length; where there is a ROM,
 *            at most 0xF00000 plus its length
 *
 * ibz_reset sets the state as the processor's reset does. ibz_step does one instruction, or takes one interrupt, and writes at the
 * mark how to take it back. ibz_run does many. ibz_undo takes the last step back: block and memory are then, byte for byte, what
 * they were before it. After any mix of these, block and memory are what the steps that were not undone would have left.
 *
 * The ROM is read as memory is, in both states: operation words, extension words, operands, the stack. Between memory and ROM, and past the
 * ROM's end, there is nothing, and an access is a bus error (vector 2). Nothing writes the ROM: to write a byte or a word of it is a bus error
 * too, whose information word has a write, and a word at an odd address is an address error before that (vector 3). An instruction that
 * reads what it is to write reads it there, and fails as it writes. An exception whose frame would lie in it halts the machine, as every
 * frame that can not be written. So no record names an address of the ROM, and a record that does is refused (IBZ_BAD_RECORD). A reset's
 * window has nothing of it: a program in user state reaches the ROM once you give a hi above 0xF00000. Give every call the same ROM, as
 * every call the same memory. A ROM of 0 bytes is none: memory may then reach beyond 0xF00000, and hi goes by memory's length.
 *
 * The window fences user state, where SR has no bit 0x2000 (S). There a byte or a word that is read or written and does not lie wholly in
 * it, be it an operation word, an extension word, an operand or on the stack, is a bus error, as outside memory and ROM; a word at an odd
 * address is an address error before that (vector 3). The address is judged in 24 bits. lo and hi may be odd, and a word that lo or hi cuts
 * is outside; of a long each word is judged by itself, and the frame has the first that fails. Supervisor state is not fenced, nor are the
 * frames and vectors of exceptions and interrupts, which are supervisor's from user state too.
 *
 * ibz_try does steps of a program that is not to be trusted, in a window, and tells how they ended; ibz_take_back takes them back. Before
 * the first step that takes an exception or halts, a program that starts in user state changes neither T, S and the mask in SR nor SSP, and
 * no byte outside the window. Nor do SSP and these bytes, of memory and of the ROM, matter to it: its steps, their records and their clocks
 * are the same whatever they hold.
 *
 * Where fewer than 536 bytes of journal are free after the mark, a step or a run goes by one of two manners:
 *
 *   ibz_step, ibz_run                    drop the fewest oldest records that make 536 bytes free, and move the rest down to place 0. No
 *                                        other byte of the journal changes. The answer has how many bytes were `moved` and how many
 *                                        records were `dropped`; what is dropped can not be taken back any more
 *   ibz_step_keeping, ibz_run_keeping    keep every record, and take no step (IBZ_JOURNAL_FULL, IBZ_REASON_JOURNAL)
 *
 * With room enough the two do the same, and they may be mixed on one journal. The mark is always the joint length of the records that
 * are left. Only records on the way back to place 0 that are well shaped, all of them, are dropped or moved (IBZ_BAD_RECORD,
 * IBZ_REASON_RECORD); a journal with room enough is not judged. To find where records begin, an ibz_step on a full journal reads all of
 * them back, at every step: some 250 instructions a record. An ibz_run does so once, where it first finds the journal full, and from
 * then on reads only those that are about to be dropped: where a journal is long and full, prefer runs.
 *
 * The records that steps write are in form 1. Form 2 is for posting: the same records in the same order, but changed bytes at neighbouring
 * addresses are joined into runs, each with one address. ibz_to_form_two converts a whole journal into it, ibz_to_form_one converts it back;
 * a journal of either form whose records are well shaped, all of them, comes back byte for byte through the other. Neither needs a machine.
 * Steps and undos read form 1 only: a journal that was posted is converted back first. The bytes do not tell which form they are in, and
 * some are well shaped in both: say it beside them.
 *
 * Every answer has a `number`, and ibz_part returns it: 0 if the call was done, else why it was refused (enum ibz_number). A refused step,
 * run or undo leaves block, memory, journal and mark as they were. A refused reset sets the halted state, 2 in slot 19 and 0 in every
 * other; but a block that is not 80 bytes long (IBZ_NO_BLOCK) is never written. Of a try and of taking back, what came before the refused
 * step or undo stays done. A refused conversion leaves every byte of the target as it was.
 *
 * The calls take any values whatever: any bytes in block, memory, ROM, journal and target, any lengths, any mark, any window. Each ends, and
 * touches nothing but what it was lent. That is proved of the library, for a caller who keeps to what no C function can check:
 *
 *   - a pointer is good for its length: for reading, and for writing where it is not const. It may be NULL if its length is 0.
 *     It may have any alignment.
 *   - a length is at most PTRDIFF_MAX, as that of every C object is.
 *   - block, memory, ROM and journal do not overlap; nor do the journal and the target of a conversion, not by one byte.
 *   - nobody else uses them during the call. The library itself keeps nothing between calls and has no variables: several threads
 *     may call it at the same time, each on a machine of its own. One ROM may be lent to several machines, as long as nobody writes it.
 *
 * It needs no start, allocates nothing, takes some 2 KiB of stack, an ibz_run 15 KiB, and calls nothing from outside but memset and memcpy.
 *
 * Later versions will add members to the end of answers, and arguments to calls: compile host and library from one version,
 * IBZ_VERSION. */
#ifndef IBEZOFANLE_H
#define IBEZOFANLE_H

#include <stddef.h>
#include <stdint.h>

#ifdef __cplusplus
extern "C" {
#endif

#define IBZ_VERSION 6

/* ---- sizes and limits */

#define IBZ_BLOCK_LENGTH 80u       /* bytes of the block */
#define IBZ_SLOTS 20u              /* slots in it */
#define IBZ_RECORD_MOST 536u       /* bytes of the longest record: what a step wants free in the journal */
#define IBZ_RECORD_TWO_MOST 606u   /* bytes of the longest record of form 2 */
#define IBZ_MEMORY_LEAST 1024u     /* bytes of memory, an even number of them */
#define IBZ_MEMORY_MOST 16777216u
#define IBZ_MEMORY_MOST_BESIDE_ROM 15728640u /* where the ROM has more than 0 bytes */
#define IBZ_ROM_START 0xF00000u    /* the address of the ROM's first byte */
#define IBZ_ROM_MOST 1048576u      /* bytes of the ROM, an even number of them */
#define IBZ_LEVEL_MOST 7u          /* an interrupt's level */
#define IBZ_BUDGET_MOST 1000000u   /* steps of a run, or of a try */
#define IBZ_CLOCKS_MOST 204u       /* clocks of a step; a run has at most IBZ_BUDGET_MOST times as many */

/* No ROM: the two arguments `rom` and `rom_length` of a call. */
#define IBZ_NO_ROM NULL, 0

/* ---- the block */

/* The slots, in the order of the block. A7 is SSP if SR has bit 0x2000 (S), else USP: ibz_get_a7 below. */
enum ibz_slot {
  IBZ_D0 = 0, IBZ_D1, IBZ_D2, IBZ_D3, IBZ_D4, IBZ_D5, IBZ_D6, IBZ_D7,
  IBZ_A0 = 8, IBZ_A1, IBZ_A2, IBZ_A3, IBZ_A4, IBZ_A5, IBZ_A6,
  IBZ_USP = 15,
  IBZ_SSP = 16,
  IBZ_PC = 17,
  IBZ_SR = 18,  /* only bits of 0xA71F, else IBZ_BAD_STATE */
  IBZ_MODE = 19 /* enum ibz_mode, else IBZ_BAD_STATE */
};

enum ibz_mode {
  IBZ_MODE_RUNNING = 0,
  IBZ_MODE_STOPPED = 1, /* by STOP: only an interrupt goes on */
  IBZ_MODE_HALTED = 2   /* an exception could not be taken (IBZ_EVENT_HALT): only undo and reset go on */
};

/* ---- answers */

/* `number` of every answer. Each call asks in the order of its row, and gives the first number that applies, or 0:
 *
 *   ibz_reset                           9   1  12
 *   ibz_step                            9   1  12   2  10   3   4   5   6   8
 *   ibz_step_keeping, ibz_try           9   1  12   2  10   3   4   5   6
 *   ibz_run, ibz_run_keeping            9   1  12   2  10   3   4
 *   ibz_undo, ibz_take_back             9   1  12   2  10   4   7   8
 *   ibz_part                            1  12  13
 *   ibz_to_form_two, ibz_to_form_one    8  11
 *
 * ibz_try asks so before its first step, and where it is to do none; then whether it starts in supervisor state. A later step of it can be
 * refused by 5 only. ibz_take_back asks so before each undo; where it is to do none, it asks for 9 alone. A conversion judges all records
 * before it asks for 11. */
enum ibz_number {
  IBZ_DONE = 0,
  IBZ_BAD_MEMORY = 1,    /* memory's length is odd, below 1,024 or above 16,777,216 */
  IBZ_BAD_STATE = 2,     /* SR has a bit outside 0xA71F, or mode is above 2; each is judged in all its 32 bits */
  IBZ_BAD_REQUEST = 3,   /* level is above 7 (a step); budget or count is above 1,000,000 (a run, ibz_try) */
  IBZ_BAD_MARK = 4,      /* mark is greater than the journal's length */
  IBZ_JOURNAL_FULL = 5,  /* the journal is shorter than 536 bytes (ibz_step); fewer than 536 bytes of it are after the mark (ibz_step_keeping,
                          * ibz_try) */
  IBZ_IS_HALTED = 6,     /* mode is 2 */
  IBZ_NO_RECORD = 7,     /* mark is 0: nothing is left to take back */
  IBZ_BAD_RECORD = 8,    /* undo: what stands below the mark is no well-formed record for this state and memory.
                          * ibz_step: fewer than 536 bytes of journal are after the mark, and below it, on the way back to place 0, stands no
                          * well-shaped record for this length of memory: one that is well formed but for the comparison with what state and
                          * memory hold.
                          * A conversion: read from the journal's end, on the way back to place 0, stands no well-shaped record of the form
                          * that it is to be in, with addresses below 16,777,216, whatever the memory */
  IBZ_NO_BLOCK = 9,      /* the block is not 80 bytes long; nothing else is looked at */
  IBZ_BAD_WINDOW = 10,   /* lo is above hi; or hi is above memory's length, or where there is a ROM, above 0xF00000 plus its length. lo and hi
                          * may be equal: nothing is inside */
  IBZ_TARGET_SHORT = 11, /* the target is shorter than the journal in the other form */
  IBZ_BAD_ROM = 12,      /* the ROM's length is odd or above 1,048,576; or it is above 0, and memory's length is above 15,728,640 */
  IBZ_NO_PART = 13       /* neither memory nor the ROM holds that part */
};

/* `reason` of a run that was done: the first of these, in this order, that held before a further step. */
enum ibz_reason {
  IBZ_REASON_NONE = 0,    /* the run was refused */
  IBZ_REASON_BUDGET = 1,  /* as many steps were done as were asked for */
  IBZ_REASON_HALTED = 2,
  IBZ_REASON_STOPPED = 3, /* the machine waits for an interrupt */
  IBZ_REASON_JOURNAL = 4, /* the journal has no room: as IBZ_JOURNAL_FULL, in either manner */
  IBZ_REASON_RECORD = 6,  /* records would have to be dropped, and one is not well shaped: as IBZ_BAD_RECORD of ibz_step (ibz_run alone) */
  IBZ_REASON_ADDRESS = 5  /* PC is the stop address, in all 32 bits */
};

/* `end` of a try. */
enum ibz_end {
  IBZ_END_SPENT = 1,      /* as many steps were done as were asked for */
  IBZ_END_SUPERVISED = 2, /* the machine was in supervisor state at the start: no step was done */
  IBZ_END_EXCEPTION = 3,  /* the last step took an exception: `vector`. If a trace followed and halted the machine, the block's mode tells */
  IBZ_END_HALTED = 4,     /* the last step halted the machine, by the first exception of it: IBZ_EVENT_HALT */
  IBZ_END_REFUSED = 5     /* a step was refused: `number` */
};

/* `event` of a step that was done: IBZ_EVENT_NONE, or 1 more than the vector of the first exception that it took, or IBZ_EVENT_HALT
 * where that one could not be taken: its frame could not be written, or its vector was 2 or 3 and held, once the frame would have been
 * written, an odd address. Then nothing of that exception is done but that mode is 2. A trap whose trace then halts the machine gives the
 * trap's event: whether the machine is halted is told by the block's mode.
 *
 * Bcc, BRA, BSR, DBcc, JMP, JSR, RTS, RTR and RTE to an odd address take the address error (vector 3) in their own step: the frame has
 * the target as its access address, and as its PC the jump's address plus 2 (ibz_get_fault below). Other odd handlers, and a state with
 * an odd PC, fault when the next word is to be read. */
#define IBZ_EVENT_NONE 0u
#define IBZ_EVENT_HALT 257u

/* `clocks` of a step or a run: clock periods of an MC68000, by Appendix D of the M68000 Programmer's Reference Manual, and a maximum
 * where the manual gives only that (division; BCHG, BSET and BCLR of a register).
 *   An instruction counts its line with the time of its operands' addresses; a shift, MOVEM and a multiplication by their formulas.
 *   A step that takes an exception other than trace counts the exception's line alone, and CHK's the time of its operand beside it: 34
 *   for an illegal or privileged instruction, line 1010 or 1111 and TRAPV, 38 TRAP, 42 a division by zero, 44 CHK and an interrupt, 50 a
 *   bus or address error. A trace adds 34. An exception or a trace that could not be taken, so that the machine halts, counts 0.
 *   A stopped machine that takes no interrupt counts 4.
 * A step has at most 204, a run the sum of its steps, at most 204,000,000; a call that is refused has 0. An undo gives no clocks: who adds
 * them up keeps the sums that going back is to lead to. */

struct ibz_reset_answer {
  uint32_t number; /* enum ibz_number */
  uint32_t lo;     /* the window after it: 0 and memory's length, whatever the ROM; 0 and 0 if refused */
  uint32_t hi;
};

struct ibz_step_answer {
  uint32_t number; /* enum ibz_number */
  uint32_t event;  /* what happened; 0 if refused */
  size_t mark;     /* the next call's mark */
  uint32_t clocks; /* clocks of the step; 0 if refused */
  size_t moved;    /* bytes of the journal that were moved down to make room; 0 if refused, and always 0 of ibz_step_keeping */
  size_t dropped;  /* records that were dropped to make room; likewise. Where all are dropped, moved is 0 */
};

struct ibz_run_answer {
  uint32_t number;  /* enum ibz_number */
  uint32_t reason;  /* enum ibz_reason: why it ended */
  size_t mark;      /* the next call's mark */
  uint32_t steps;   /* how many steps were done: so many undos take the run back, as far as its records were not dropped */
  uint32_t clocks;  /* clocks of these steps together; 0 if refused */
  uint64_t moved;   /* bytes that these steps moved together, or UINT64_MAX where that is more; as in a step's answer */
  uint64_t dropped; /* records that they dropped together; as in a step's answer */
};

struct ibz_undo_answer {
  uint32_t number; /* enum ibz_number */
  size_t mark;     /* the next call's mark */
};

struct ibz_try_answer {
  uint32_t end;    /* enum ibz_end: why it ended */
  uint32_t number; /* enum ibz_number; 0 unless end is IBZ_END_REFUSED */
  uint32_t vector; /* of the exception that the last step took, the first where it took two; 0 unless end is IBZ_END_EXCEPTION */
  uint32_t steps;  /* how many steps were done, the one with the exception or the halt too: so many undos take the try back */
  size_t mark;     /* the next call's mark */
};

struct ibz_back_answer {
  uint32_t number; /* enum ibz_number: of the first undo that was refused, or 0 */
  uint32_t undone; /* how many steps were taken back */
  size_t mark;     /* the next call's mark */
  uint32_t lo;     /* the window after it: the old one; the one that was given if an undo was refused */
  uint32_t hi;
};

struct ibz_form_answer {
  uint32_t number; /* enum ibz_number */
  size_t length;   /* bytes of the other form, from the target's start on; 0 if refused */
};

/* A part of memory or of the ROM, where it lies in what was lent. */
struct ibz_slice {
  const uint8_t *bytes;
  size_t length;
};

/* ---- the calls */

/* SSP from address 0 of memory, PC from 4, SR 0x2700, every other slot 0; the window is all of memory, and nothing of the ROM. What the
 * block holds before does not matter, and memory is only read. A journal starts anew with it: go on with mark 0. */
struct ibz_reset_answer ibz_reset(uint8_t *block, size_t block_length, const uint8_t *memory, size_t memory_length, const uint8_t *rom,
                                  size_t rom_length);

/* One step. `level` asks for an interrupt, 1 to 7, by `vector`; it is taken if it is 7 or above the mask in SR. At level 0, or if it
 * is not taken, one instruction is done; a stopped machine stays as it is, and that is a step too. Where the journal is full, the oldest
 * records are dropped first. */
struct ibz_step_answer ibz_step(uint8_t *block, size_t block_length, uint32_t lo, uint32_t hi, uint8_t *memory, size_t memory_length,
                                const uint8_t *rom, size_t rom_length, uint32_t level, uint8_t vector, uint8_t *journal,
                                size_t journal_length, size_t mark);

/* The same step, but every record is kept: where the journal is full it is refused by 5. */
struct ibz_step_answer ibz_step_keeping(uint8_t *block, size_t block_length, uint32_t lo, uint32_t hi, uint8_t *memory,
                                        size_t memory_length, const uint8_t *rom, size_t rom_length, uint32_t level, uint8_t vector,
                                        uint8_t *journal, size_t journal_length, size_t mark);

/* Steps of ibz_step with level 0, at most `budget` of them, until a reason holds (enum ibz_reason). To stop at no address, give one
 * that the program never reaches, as 0xFFFFFFFF. */
struct ibz_run_answer ibz_run(uint8_t *block, size_t block_length, uint32_t lo, uint32_t hi, uint8_t *memory, size_t memory_length,
                              const uint8_t *rom, size_t rom_length, uint32_t budget, uint32_t stop, uint8_t *journal,
                              size_t journal_length, size_t mark);

/* The same of ibz_step_keeping: where the journal is full the run ends, by IBZ_REASON_JOURNAL. */
struct ibz_run_answer ibz_run_keeping(uint8_t *block, size_t block_length, uint32_t lo, uint32_t hi, uint8_t *memory,
                                      size_t memory_length, const uint8_t *rom, size_t rom_length, uint32_t budget, uint32_t stop,
                                      uint8_t *journal, size_t journal_length, size_t mark);

/* Takes the last step back, by the record that ends at the mark, whichever call wrote it, in whichever window. The journal is only read, and
 * of the ROM only its length counts. 7 is given also where steps were done but their records are dropped. */
struct ibz_undo_answer ibz_undo(uint8_t *block, size_t block_length, uint32_t lo, uint32_t hi, uint8_t *memory, size_t memory_length,
                                const uint8_t *rom, size_t rom_length, const uint8_t *journal, size_t journal_length, size_t mark);

/* ---- the tryer */

/* Steps of ibz_step_keeping with level 0 in the window lo, hi: at most `count` of them, up to the first that takes an exception or halts
 * the machine, or is refused. A start in supervisor state, if nothing refuses its first step, takes none and says so. Every record is kept,
 * so that the way back is whole. A count of 0 takes no step: it ends by IBZ_END_SPENT, or by what refuses a first step, or as supervised.
 * A stopped machine stays as it is, and these are steps too. */
struct ibz_try_answer ibz_try(uint8_t *block, size_t block_length, uint32_t lo, uint32_t hi, uint8_t *memory, size_t memory_length,
                              const uint8_t *rom, size_t rom_length, uint32_t count, uint8_t *journal, size_t journal_length, size_t mark);

/* As many undos as `steps` says, each in the window lo, hi; then the window is the old one, which the answer has and is not judged. The
 * first undo that is refused ends it, and the window stays lo, hi. With a try's window, steps and mark, and with the window of before it as
 * the old one, block, memory, mark and window are, byte for byte, what they were before the try. With 0 steps nothing but the block's
 * length is looked at. The journal is only read, and of the ROM only its length counts. */
struct ibz_back_answer ibz_take_back(uint8_t *block, size_t block_length, uint32_t lo, uint32_t hi, uint8_t *memory, size_t memory_length,
                                     const uint8_t *rom, size_t rom_length, const uint8_t *journal, size_t journal_length, size_t mark,
                                     uint32_t steps, uint32_t old_lo, uint32_t old_hi);

/* ---- for a fault page */

/* The very part of memory or of the ROM that holds `length` bytes from `address` on: what `part` then has points into what was lent. Memory
 * is tried first: it holds the part if address + length is at most its length. Else the ROM holds it if address is 0xF00000 or above, and
 * address - 0xF00000 + length is at most the ROM's length. All 64 bits of both count: the address is not cut to 24 bits, and no sum wraps.
 * A part of 0 bytes may lie at the end of either slice; at 0xF00000 that is so of a ROM of 0 bytes too. The window plays no role.
 *   It returns the number (enum ibz_number). A part that is refused is empty, at memory's start. Where the memory or the ROM that has the part
 * is NULL, the part is empty, and its address means nothing. `part` is not NULL, lies outside of memory and ROM, and holds a part before the
 * call too: {NULL, 0}, or what an earlier call gave of bytes that are still there. */
uint32_t ibz_part(const uint8_t *memory, size_t memory_length, const uint8_t *rom, size_t rom_length, uint64_t address, uint64_t length,
                  struct ibz_slice *part);

/* ---- journals for posting */

/* A whole journal of form 1 in form 2. The journal is exactly its used bytes: give the mark as its length. It is only read. With number 0
 * the first `length` bytes of the target are the other form; the target's bytes past them stay. An empty journal gives 0 and length 0.
 *   A target of half again the journal's length, journal_length + journal_length / 2, is always long enough. A run of one byte is one byte
 * longer than its entry in form 1, a longer run not longer than its entries; so a record with k changed bytes grows by at most k, and it has
 * 2 k + 2 bytes or more in form 1. */
struct ibz_form_answer ibz_to_form_two(const uint8_t *journal, size_t journal_length, uint8_t *target, size_t target_length);

/* And back: a whole journal of form 2 in form 1. All else is as above. A target of five times the journal's length is always long enough:
 * an old byte, which form 2 has too, gets an address of at most four bytes beside it. */
struct ibz_form_answer ibz_to_form_one(const uint8_t *journal, size_t journal_length, uint8_t *target, size_t target_length);

/* ---- small helpers; `slot` is below IBZ_SLOTS */

/* A slot of the block. */
static inline uint32_t ibz_get(const uint8_t *block, unsigned slot) {
  const uint8_t *p = block + 4u * slot;
  return (uint32_t)p[0] << 24 | (uint32_t)p[1] << 16 | (uint32_t)p[2] << 8 | (uint32_t)p[3];
}

/* Puts a value into a slot of the block. */
static inline void ibz_set(uint8_t *block, unsigned slot, uint32_t value) {
  uint8_t *p = block + 4u * slot;
  p[0] = (uint8_t)(value >> 24);
  p[1] = (uint8_t)(value >> 16);
  p[2] = (uint8_t)(value >> 8);
  p[3] = (uint8_t)value;
}

/* A7 as the program sees it. */
static inline uint32_t ibz_get_a7(const uint8_t *block) {
  return ibz_get(block, (ibz_get(block, IBZ_SR) & 0x2000u) != 0u ? (unsigned)IBZ_SSP : (unsigned)IBZ_USP);
}

/* The frame of a bus or address error, which a fault page shows. */
struct ibz_fault {
  uint32_t information; /* 16 for a read, 0 for a write, and the function code: 1 user data, 2 user program, 5 and 6 supervisor's */
  uint32_t address;     /* of the access that failed, 24 bits */
  uint32_t op;          /* the operation word of the instruction that made it */
  uint32_t sr;          /* as it was before that instruction */
  uint32_t pc;          /* that instruction's address plus 2 */
};

/* Reads the frame at SSP; 0 if none can lie there. It is a fault's after a step with event 3 or 4 that took no interrupt. */
static inline int ibz_get_fault(const uint8_t *block, const uint8_t *memory, size_t memory_length, struct ibz_fault *fault) {
  const size_t at = ibz_get(block, IBZ_SSP) & 0xFFFFFFu;
  if (at % 2u != 0u || memory_length < 14u || at > memory_length - 14u) return 0;
  const uint8_t *p = memory + at;
  fault->information = p[1] & 31u;
  fault->address = (uint32_t)p[3] << 16 | (uint32_t)p[4] << 8 | (uint32_t)p[5];
  fault->op = (uint32_t)p[6] << 8 | (uint32_t)p[7];
  fault->sr = (uint32_t)p[8] << 8 | (uint32_t)p[9];
  fault->pc = (uint32_t)p[10] << 24 | (uint32_t)p[11] << 16 | (uint32_t)p[12] << 8 | (uint32_t)p[13];
  return 1;
}

/* A refusal in words. */
static inline const char *ibz_number_text(uint32_t number) {
  switch (number) {
  case IBZ_DONE: return "done";
  case IBZ_BAD_MEMORY: return "the length of memory is odd, too small or too large";
  case IBZ_BAD_STATE: return "SR or mode has a value that it can not have";
  case IBZ_BAD_REQUEST: return "the level, the budget or the count is too high";
  case IBZ_BAD_MARK: return "the mark is beyond the journal";
  case IBZ_JOURNAL_FULL: return "the journal has no room for a record";
  case IBZ_IS_HALTED: return "the machine is halted";
  case IBZ_NO_RECORD: return "nothing is left to take back";
  case IBZ_BAD_RECORD: return "a record of the journal is not a good one";
  case IBZ_NO_BLOCK: return "the block is not 80 bytes long";
  case IBZ_BAD_WINDOW: return "the window ends before it begins, or beyond memory and ROM";
  case IBZ_TARGET_SHORT: return "the target is too short for the other form";
  case IBZ_BAD_ROM: return "the length of the ROM is odd or too large, or memory is too large beside it";
  case IBZ_NO_PART: return "neither memory nor the ROM holds that part";
  default: return "an unknown refusal";
  }
}

/* Why a run ended, in words. */
static inline const char *ibz_reason_text(uint32_t reason) {
  switch (reason) {
  case IBZ_REASON_NONE: return "it was refused";
  case IBZ_REASON_BUDGET: return "the budget is spent";
  case IBZ_REASON_HALTED: return "the machine is halted";
  case IBZ_REASON_STOPPED: return "the machine waits for an interrupt";
  case IBZ_REASON_JOURNAL: return "the journal has no room for a record";
  case IBZ_REASON_RECORD: return "a record below the mark is not a good one";
  case IBZ_REASON_ADDRESS: return "PC is the stop address";
  default: return "an unknown reason";
  }
}

/* Why a try ended, in words. */
static inline const char *ibz_end_text(uint32_t end) {
  switch (end) {
  case IBZ_END_SPENT: return "all steps are done";
  case IBZ_END_SUPERVISED: return "the machine is in supervisor state";
  case IBZ_END_EXCEPTION: return "an exception was taken";
  case IBZ_END_HALTED: return "the machine halted";
  case IBZ_END_REFUSED: return "a step was refused";
  default: return "an unknown end";
  }
}

#ifdef __cplusplus
}
#endif

#endif
