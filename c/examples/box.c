/* box.c - a small host to start from: loads an image and a ROM, steps, runs, shows the machine, goes back, tries programs in a window, and
 * writes the journal to a file, for posting.
 *
 *   box [-d] [-m BYTES] [-j BYTES] [-a ADDRESS] [-r ROM] IMAGE
 *
 * IMAGE is raw bytes; they go to ADDRESS (0) of a memory of BYTES (65,536), and the machine is reset: SSP is the long at address 0,
 * PC the long at 4. The bytes of ROM, if one is named, stand at $F00000, and can not be written. -j says how many bytes of journal there are
 * (1,048,576). It keeps every record, and does no step where the journal is full; with -d it drops the oldest instead. Then it reads
 * commands, one to a line; `help` lists them. */
#include "ibezofanle.h"
#include <stdio.h>
#include <stdlib.h>
#include <string.h>

static uint8_t block[IBZ_BLOCK_LENGTH], *memory, *journal, *rom;
static size_t memory_length = 65536, journal_length = 1048576, rom_length, mark;
static uint32_t lo, hi;              /* the window */
static int drops;                    /* -d */
static unsigned long standing, gone; /* steps that stand, and of these the ones that can not be taken back any more */

/* The clocks since the reset; and, for going back, what they were where steps or runs ended, and in which window those were done: the last
 * of these is where the machine is. A record has two bytes or more, so never more are wanted than half the journal's and two. */
struct place {
  unsigned long standing;
  unsigned long long clocks;
  uint32_t lo, hi;
};
static unsigned long long clocks;
static struct place *places;
static size_t last, most_places;

static const char help[] =
    "step [N]              do N steps (1), and show each\n"
    "run [N] [ADDRESS]     do N steps (1000000), or fewer: until PC is ADDRESS, or the machine stops, halts, or the journal is full\n"
    "irq LEVEL VECTOR      do a step that asks for an interrupt\n"
    "back [N]              take N steps back (1); `back all` takes back all\n"
    "forget                keep the machine as it is, and give up the way back: the journal is empty again\n"
    "journal FILE          write the journal's used bytes to FILE, as they are: form 1\n"
    "post FILE             write them to FILE in form 2, for posting\n"
    "window LO HI          in user state, let the program reach memory and ROM from LO to below HI only\n"
    "try LO HI [N]         do N steps (1000) in that window, up to the first exception; tell how it ended, and take all back\n"
    "regs                  show the registers\n"
    "mem ADDRESS [N]       show N bytes of memory or of the ROM (64)\n"
    "reset                 reset the machine, and give up the way back; memory stays\n"
    "help, quit            numbers are decimal, or hex as 0x1F or $1F\n";

/* ---- what is shown */

/* As many of n bytes from an address on as memory or the ROM has there: perhaps none. */
static struct ibz_slice part_at(uint64_t address, uint64_t n) {
  struct ibz_slice part = {NULL, 0};
  const uint64_t end = address < memory_length ? memory_length : IBZ_ROM_START + rom_length;
  if (address < end && n > end - address) n = end - address;
  ibz_part(memory, memory_length, rom, rom_length, address, n, &part); /* one that is refused is empty */
  return part;
}

/* Rows of 16 bytes, each with its address; a sign before the byte at `marked`. */
static void show_bytes(const char *before, uint64_t address, struct ibz_slice part, uint64_t marked) {
  for (size_t i = 0; i < part.length; i++) {
    if (i % 16 == 0) printf("%s%s%06llX ", i == 0 ? "" : "\n", before, (unsigned long long)(address + i));
    printf("%c%02X", address + i == marked ? '>' : ' ', part.bytes[i]);
  }
  puts("");
}

static void show_status(void) {
  static const char *const modes[] = {"running", "stopped", "halted"};
  const uint32_t sr = ibz_get(block, IBZ_SR);
  printf("SR %04X  %c%c mask %u  ", (unsigned)sr, sr & 0x8000u ? 'T' : '-', sr & 0x2000u ? 'S' : '-', (unsigned)(sr >> 8 & 7u));
  for (int i = 4; i >= 0; i--) putchar(sr >> i & 1u ? "CVZNX"[i] : '-');
  printf("  %s", modes[ibz_get(block, IBZ_MODE) % 3u]);
}

/* One line: how many steps stand, where the machine is, the word there, and the clocks, with those since `before`. */
static void show_place(unsigned long long before) {
  const uint32_t pc = ibz_get(block, IBZ_PC);
  const struct ibz_slice word = part_at(pc & 0xFFFFFFu, 2);
  printf("%8lu  PC %08X  ", standing, (unsigned)pc);
  if (word.length == 2) printf("%02X%02X", word.bytes[0], word.bytes[1]);
  else printf("----");
  printf("  ");
  show_status();
  printf("  %llu clocks", clocks);
  if (clocks > before) printf(" (+%llu)", clocks - before);
  puts("");
}

static void show_registers(void) {
  for (unsigned i = 0; i < 8; i++) printf("D%u %08X%s", i, (unsigned)ibz_get(block, IBZ_D0 + i), i % 4 == 3 ? "\n" : "  ");
  for (unsigned i = 0; i < 7; i++) printf("A%u %08X%s", i, (unsigned)ibz_get(block, IBZ_A0 + i), i % 4 == 3 ? "\n" : "  ");
  printf("A7 %08X\n", (unsigned)ibz_get_a7(block));
  printf("PC %08X  ", (unsigned)ibz_get(block, IBZ_PC));
  printf("USP %08X  SSP %08X  window %06X to %06X\n", (unsigned)ibz_get(block, IBZ_USP), (unsigned)ibz_get(block, IBZ_SSP), (unsigned)lo,
         (unsigned)hi);
  show_status();
  printf("  %llu clocks\n%lu steps can be taken back; %zu of %zu journal bytes used\n", clocks, standing - gone, mark, journal_length);
}

static void show_memory(unsigned long at, unsigned long n) {
  const struct ibz_slice part = part_at(at, n);
  if (part.length == 0 && n > 0) printf("nothing is at %06lX\n", at);
  else show_bytes("", at, part, UINT64_MAX);
}

/* The page of a fault: its frame on the stack, and the bytes about the access that failed. */
static void show_fault(void) {
  static const char *const codes[] = {"", "user data", "user program", "", "", "supervisor data", "supervisor program", ""};
  struct ibz_fault f;
  if (!ibz_get_fault(block, memory, memory_length, &f)) return;
  printf("          %s at %06X failed, %s; instruction %04X, PC %08X, SR %04X\n", f.information & 16u ? "a read" : "a write",
         (unsigned)f.address, codes[f.information & 7u], (unsigned)f.op, (unsigned)f.pc, (unsigned)f.sr);
  const uint32_t row = f.address & ~15u;
  const struct ibz_slice part = part_at(row, 16);
  if (part.length > 0) show_bytes("          ", row, part, f.address);
  if (part.length <= f.address - row) printf("          nothing is at %06X\n", (unsigned)f.address);
}

static void show_refusal(uint32_t number) {
  printf("not done: %s (%u)\n", ibz_number_text(number), (unsigned)number);
  if (number == IBZ_JOURNAL_FULL) puts("`back` makes room, and so does `forget`");
}

/* ---- what is done */

/* Keeps the machine as it is, and gives up the way back. */
static void forget(void) {
  mark = 0;
  standing = gone = 0;
  last = 0;
  places[0].standing = 0;
  places[0].clocks = clocks;
  show_place(clocks);
}

static void reset(void) {
  const struct ibz_reset_answer a = ibz_reset(block, sizeof block, memory, memory_length, rom, rom_length);
  if (a.number != IBZ_DONE) show_refusal(a.number);
  lo = a.lo;
  hi = a.hi;
  clocks = 0;
  forget();
}

/* After steps that were done. */
static void noted(size_t next, uint32_t steps, uint32_t more, unsigned long long dropped, unsigned long long moved) {
  mark = next;
  standing += steps;
  gone += (unsigned long)dropped;
  clocks += more;
  if (dropped > 0) printf("          %llu records dropped, %llu bytes moved\n", dropped, moved);
  if (steps == 0) return;
  if (last + 1 == most_places) { /* the places that no way leads back to make room */
    size_t first = 0;
    while (places[first].standing < gone) first++;
    for (size_t i = first; i <= last; i++) places[i - first] = places[i];
    last -= first;
  }
  places[++last].standing = standing;
  places[last].clocks = clocks;
  places[last].lo = lo;
  places[last].hi = hi;
}

static int step(uint32_t level, uint8_t vector) {
  const unsigned long long before = clocks;
  const int interrupt = level == IBZ_LEVEL_MOST || level > (ibz_get(block, IBZ_SR) >> 8 & 7u);
  const struct ibz_step_answer a =
      drops ? ibz_step(block, sizeof block, lo, hi, memory, memory_length, rom, rom_length, level, vector, journal, journal_length, mark)
            : ibz_step_keeping(block, sizeof block, lo, hi, memory, memory_length, rom, rom_length, level, vector, journal, journal_length, mark);
  if (a.number != IBZ_DONE) {
    show_refusal(a.number);
    return 0;
  }
  noted(a.mark, 1, a.clocks, a.dropped, a.moved);
  if (a.event == IBZ_EVENT_HALT) puts("          halted");
  else if (a.event != IBZ_EVENT_NONE) printf("          exception: vector %u\n", (unsigned)a.event - 1u);
  if (!interrupt && (a.event == 3 || a.event == 4)) show_fault();
  show_place(before);
  return 1;
}

/* A run has at most IBZ_BUDGET_MOST steps: more are several runs. */
static void run(unsigned long n, uint32_t stop) {
  const unsigned long long before = clocks;
  struct ibz_run_answer a;
  unsigned long done = 0;
  do {
    const uint32_t budget = n - done < IBZ_BUDGET_MOST ? (uint32_t)(n - done) : IBZ_BUDGET_MOST;
    a = drops ? ibz_run(block, sizeof block, lo, hi, memory, memory_length, rom, rom_length, budget, stop, journal, journal_length, mark)
              : ibz_run_keeping(block, sizeof block, lo, hi, memory, memory_length, rom, rom_length, budget, stop, journal, journal_length, mark);
    if (a.number != IBZ_DONE) {
      show_refusal(a.number);
      return;
    }
    noted(a.mark, a.steps, a.clocks, a.dropped, a.moved);
    done += a.steps;
  } while (a.reason == IBZ_REASON_BUDGET && done < n);
  printf("          %lu steps: %s\n", done, ibz_reason_text(a.reason));
  show_place(before);
}

static int undo(void) {
  const struct ibz_undo_answer a =
      ibz_undo(block, sizeof block, lo, hi, memory, memory_length, rom, rom_length, journal, journal_length, mark);
  mark = a.mark;
  standing -= a.number == IBZ_DONE;
  if (a.number != IBZ_DONE) show_refusal(a.number);
  return a.number == IBZ_DONE;
}

/* An undo tells no clocks. They are those of the first place that is not before, less, where that is the end of a run, those of the steps
 * up to there: these are done again in their window, which the journal has room for, and taken back. */
static void back(unsigned long n) {
  for (; n > 0 && undo(); n--) {}
  while (last > 0 && places[last - 1].standing >= standing) last--;
  clocks = places[last].clocks;
  for (n = 0; standing < places[last].standing; n++) {
    const struct ibz_step_answer a = ibz_step_keeping(block, sizeof block, places[last].lo, places[last].hi, memory, memory_length, rom,
                                                      rom_length, 0, 0, journal, journal_length, mark);
    mark = a.mark;
    standing++;
    clocks -= a.clocks;
  }
  for (; n > 0; n--) undo();
  places[last].standing = standing;
  places[last].clocks = clocks;
  show_place(clocks);
}

/* Steps in another window, from where the machine is; then all is what it was, this window too. */
static void try_in(uint32_t from, uint32_t to, uint32_t count) {
  const struct ibz_try_answer a =
      ibz_try(block, sizeof block, from, to, memory, memory_length, rom, rom_length, count, journal, journal_length, mark);
  printf("          %u steps: %s", (unsigned)a.steps, ibz_end_text(a.end));
  if (a.end == IBZ_END_EXCEPTION) printf(", vector %u", (unsigned)a.vector);
  printf("; PC %08X  ", (unsigned)ibz_get(block, IBZ_PC));
  show_status();
  puts("");
  if (a.end == IBZ_END_REFUSED) show_refusal(a.number);
  if (a.vector == 2 || a.vector == 3) show_fault();
  const struct ibz_back_answer b = ibz_take_back(block, sizeof block, from, to, memory, memory_length, rom, rom_length, journal,
                                                 journal_length, a.mark, a.steps, lo, hi);
  mark = b.mark;
  lo = b.lo;
  hi = b.hi;
  show_place(clocks);
}

/* ---- what is written */

/* Over what the file held before; or says that it can not be. */
static int write_file(const char *name, const uint8_t *bytes, size_t n) {
  FILE *f = fopen(name, "wb");
  int good = f != NULL && fwrite(bytes, 1, n, f) == n;
  if (f != NULL && fclose(f) != 0) good = 0; /* where a disk is full it may be told only here */
  if (!good) printf("%s can not be written\n", name);
  return good;
}

static void write_journal(const char *name) {
  if (write_file(name, journal, mark)) printf("%zu bytes of journal\n", mark);
}

/* Form 2 finds room in half again the journal's length. The file is written only once all is converted. */
static void post(const char *name) {
  const size_t room = mark + mark / 2;
  uint8_t *const two = (uint8_t *)calloc(room + 1, 1); /* one more: NULL is then no memory, and not 0 bytes */
  if (two == NULL) {
    puts("no memory for form 2");
    return;
  }
  const struct ibz_form_answer a = ibz_to_form_two(journal, mark, two, room);
  if (a.number != IBZ_DONE) show_refusal(a.number);
  else if (write_file(name, two, a.length)) printf("%zu bytes of journal, %zu bytes in form 2\n", mark, a.length);
  free(two);
}

/* ---- what is asked */

enum { WORDS = 5, NUMBERS = 3 };

/* A number that is the whole of a word: decimal, or hex as 0x1F or $1F. */
static int number(const char *text, unsigned long *value) {
  char *end;
  const int dollar = text[0] == '$', hex = dollar || (text[0] == '0' && (text[1] == 'x' || text[1] == 'X'));
  *value = strtoul(text + dollar, &end, hex ? 16 : 10);
  return text[dollar] >= '0' && end != text + dollar && *end == 0;
}

/* The words of a line, as far as there is room for them. */
static int split(char *line, char **words) {
  int n = 0;
  for (char *p = line + strspn(line, " \t\r\n"); n < WORDS && *p != 0; p += strspn(p, " \t\r\n")) {
    words[n++] = p;
    p += strcspn(p, " \t\r\n");
    if (*p != 0) *p++ = 0;
  }
  return n;
}

static int asked(char *line) {
  char *w[WORDS];
  unsigned long v[NUMBERS] = {0, 0, 0};
  const int n = split(line, w), has_a = n > 1, has_b = n > 2;
  if (n == 0) return 1;
  int good = n <= 1 + NUMBERS; /* every further word is a number, but `all` and a file's name */
  for (int i = 1; i < n && good; i++) good = number(w[i], &v[i - 1]);
  const unsigned long a = v[0], b = v[1], most = 0xFFFFFFFFu;
  if (strcmp(w[0], "quit") == 0) return 0;
  if (strcmp(w[0], "help") == 0) printf("%s", help);
  else if (strcmp(w[0], "back") == 0 && n == 2 && strcmp(w[1], "all") == 0) back(standing - gone);
  else if (strcmp(w[0], "journal") == 0 && n == 2) write_journal(w[1]);
  else if (strcmp(w[0], "post") == 0 && n == 2) post(w[1]);
  else if (!good) puts("that is no number: `help` lists what can be asked");
  else if (strcmp(w[0], "step") == 0 && n <= 2)
    for (unsigned long k = has_a ? a : 1; k > 0 && step(0, 0); k--) {}
  else if (strcmp(w[0], "run") == 0 && n <= 3) run(has_a ? a : IBZ_BUDGET_MOST, has_b ? (uint32_t)b : 0xFFFFFFFFu);
  else if (strcmp(w[0], "irq") == 0 && n == 3 && a <= most && b <= 255) step((uint32_t)a, (uint8_t)b);
  else if (strcmp(w[0], "back") == 0 && n <= 2) back(has_a ? a : 1);
  else if (strcmp(w[0], "forget") == 0 && n == 1) forget();
  else if (strcmp(w[0], "window") == 0 && n == 3 && a <= most && b <= most) lo = (uint32_t)a, hi = (uint32_t)b;
  else if (strcmp(w[0], "try") == 0 && n >= 3 && a <= most && b <= most && v[2] <= most)
    try_in((uint32_t)a, (uint32_t)b, n > 3 ? (uint32_t)v[2] : 1000);
  else if (strcmp(w[0], "regs") == 0 && n == 1) show_registers();
  else if (strcmp(w[0], "mem") == 0 && n >= 2 && n <= 3) show_memory(a, has_b ? b : 64);
  else if (strcmp(w[0], "reset") == 0 && n == 1) reset();
  else puts("`help` lists what can be asked");
  return 1;
}

static int usage(void) {
  fprintf(stderr, "usage: box [-d] [-m BYTES] [-j BYTES] [-a ADDRESS] [-r ROM] IMAGE\n"
                  "BYTES of memory: an even number, 1024 to 16777216, beside a ROM to 15728640; of journal: 536 or more\n"
                  "-d: where the journal is full, its oldest records are dropped\n");
  return 2;
}

/* Reads a file to where there is so much room, and tells how many bytes it has; SIZE_MAX if it can not be read. */
static size_t load(const char *name, uint8_t *to, size_t room) {
  FILE *f = fopen(name, "rb");
  uint8_t more;
  if (f == NULL) {
    fprintf(stderr, "box: can't read %s\n", name);
    return SIZE_MAX;
  }
  const size_t size = fread(to, 1, room, f);
  if (fread(&more, 1, 1, f) != 0) fprintf(stderr, "box: %s is longer than its room; what is past its end was left out\n", name);
  fclose(f);
  return size;
}

int main(int argc, char **argv) {
  unsigned long address = 0;
  const char *rom_name = NULL;
  size_t rom_size = 0;
  int i = 1;
  for (; i + 1 < argc && argv[i][0] == '-'; i++) {
    unsigned long value = 0;
    if (strcmp(argv[i], "-d") == 0) {
      drops = 1;
      continue;
    }
    if (strcmp(argv[i], "-r") != 0 && !number(argv[i + 1], &value)) return usage();
    if (strcmp(argv[i], "-m") == 0) memory_length = value;
    else if (strcmp(argv[i], "-j") == 0) journal_length = value;
    else if (strcmp(argv[i], "-a") == 0) address = value;
    else if (strcmp(argv[i], "-r") == 0) rom_name = argv[i + 1];
    else return usage();
    i++;
  }
  if (i + 1 != argc || memory_length < IBZ_MEMORY_LEAST || memory_length % 2 != 0 || journal_length < IBZ_RECORD_MOST
      || memory_length > (rom_name != NULL ? IBZ_MEMORY_MOST_BESIDE_ROM : IBZ_MEMORY_MOST) || address > memory_length)
    return usage();
  memory = (uint8_t *)calloc(memory_length, 1);
  journal = (uint8_t *)calloc(journal_length, 1);
  rom = (uint8_t *)calloc(IBZ_ROM_MOST, 1);
  most_places = journal_length / 2 + 2;
  places = (struct place *)calloc(most_places, sizeof *places);
  if (memory == NULL || journal == NULL || rom == NULL || places == NULL) {
    fprintf(stderr, "box: no memory for %s\n", argv[i]);
    return 2;
  }
  const size_t size = load(argv[i], memory + address, memory_length - address);
  if (rom_name != NULL) rom_size = load(rom_name, rom, IBZ_ROM_MOST);
  if (size == SIZE_MAX || rom_size == SIZE_MAX) return 2;
  rom_length = rom_size + rom_size % 2; /* a last byte by itself has a 0 beside it */
  printf("%zu bytes at %06lX of %zu; `help` lists what can be asked\n", size, address, memory_length);
  if (rom_name != NULL) printf("%zu bytes at %06lX, in the ROM\n", rom_size, (unsigned long)IBZ_ROM_START);
  reset();
  for (char line[256]; printf("> "), fflush(stdout), fgets(line, sizeof line, stdin) != NULL;)
    if (!asked(line)) break;
  free(memory);
  free(journal);
  free(rom);
  free(places);
  return 0;
}
