/* cases.c - single-step cases through the C calls: one step and its undo each, compared whole.
 * A case is a line of ten fields or fourteen, and perhaps clocks, a window and a ROM after them (crates/vectors/README.md), read from standard
 * input; without a window it is all of memory, and a ROM stands only after one. A line whose name begins with `wrong:` must not hold, every
 * other must; and where two numbers are given as arguments, so many must hold and so many must not. Each line that does not hold is told with
 * what differed first, the first three hundred of them. The mark is 1,000, so that what stands before it is seen to stay; memory and ROM end
 * where pages that can not be touched begin, and during the calls the ROM can not be written. */
#include "tests.h"

enum { FIELDS = 10, FIELDS_WITH_UNDO = 14, FIELDS_MOST = 17, TOLD = 300 };
enum { MARK = 1000, JOURNAL = 4096, LEAST = 1024, LARGEST = 16777216, LONGEST = 8192 };

static uint8_t block[IBZ_BLOCK_LENGTH], goal[IBZ_BLOCK_LENGTH], start[IBZ_BLOCK_LENGTH], journal[JOURNAL], record[JOURNAL];
static uint8_t *memory, *wanted; /* all 0 between cases */
static uint32_t lo, hi;          /* the case's window */
static uint8_t *rom, *room;      /* its ROM, at the end of room for the longest, which is all 0 between cases */
static uint32_t rom_length;

static int digit(char c) {
  return c >= '0' && c <= '9' ? c - '0' : c >= 'a' && c <= 'f' ? c - 'a' + 10 : c >= 'A' && c <= 'F' ? c - 'A' + 10 : -1;
}

/* Reads a number of one to eight digits, and leaves p behind it. */
static int number(const char **p, int base, uint32_t *n) {
  unsigned digits = 0;
  for (*n = 0; digit(**p) >= 0 && digit(**p) < base; (*p)++, digits++) *n = *n * (uint32_t)base + (uint32_t)digit(**p);
  return digits >= 1 && digits <= 8;
}

/* Whether a field is a number. */
static int whole(const char *p, uint32_t *n) { return number(&p, 16, n) && *p == 0; }

/* Whether a field is `clocks=N`, N in base 10. */
static int clocks_in(const char *p, uint32_t *n) {
  if (strncmp(p, "clocks=", 7) != 0) return 0;
  p += 7;
  return number(&p, 10, n) && *p == 0;
}

/* Whether a field says a window, and whether it is `window=LO,HI`. */
static int says_window(const char *p) { return strcmp(p, "window") == 0 || strncmp(p, "window=", 7) == 0; }

static int window_in(const char *p) {
  if (strncmp(p, "window=", 7) != 0) return 0;
  p += 7;
  if (!number(&p, 16, &lo) || *p++ != ',') return 0;
  return whole(p, &hi);
}

/* Puts the bytes that are spelled, and tells how many; `clear` puts 0 for each. */
static size_t put_bytes(const char *p, uint8_t *to, size_t most, int clear) {
  size_t n = 0;
  for (; n < most && digit(p[0]) >= 0 && digit(p[1]) >= 0; p += 2, n++) to[n] = (uint8_t)(clear ? 0 : digit(p[0]) * 16 + digit(p[1]));
  return n;
}

/* Runs PLACE:BYTES with commas between them; the place of the first byte is `first`. */
static int put_each(const char *p, uint8_t *to, uint32_t first, size_t length, int clear) {
  for (;;) {
    uint32_t place;
    if (!number(&p, 16, &place) || *p != ':' || place < first || place - first >= length) return 0;
    const size_t n = put_bytes(p + 1, to + (place - first), length - (place - first), clear);
    p += 1 + 2 * n;
    if (n == 0) return 0;
    if (*p == 0) return 1;
    if (*p++ != ',') return 0;
  }
}

/* The same of memory, or "-". */
static int put_runs(const char *p, uint8_t *to, size_t length, int clear) {
  return strcmp(p, "-") == 0 || put_each(p, to, 0, length, clear);
}

/* Whether a field says a ROM, and whether it is `rom=LENGTH` or `rom=LENGTH,RUNS`, no longer than one may be: its bytes are put, or cleared. */
static int says_rom(const char *p) { return strcmp(p, "rom") == 0 || strncmp(p, "rom=", 4) == 0; }

static int rom_in(const char *p, int clear) {
  if (strncmp(p, "rom=", 4) != 0) return 0;
  p += 4;
  if (!number(&p, 16, &rom_length) || rom_length > IBZ_ROM_MOST || (*p != 0 && *p != ',')) return 0;
  rom = room + (IBZ_ROM_MOST - rom_length);
  may_write(room, IBZ_ROM_MOST, 1, 1);
  const int good = *p == 0 || put_each(p + 1, rom, IBZ_ROM_START, rom_length, clear);
  may_write(room, IBZ_ROM_MOST, 1, 0);
  return good;
}

static int put_slots(const char *p, uint8_t *b) {
  for (unsigned s = 0; s < IBZ_SLOTS; s++) {
    uint32_t value;
    if (!number(&p, 16, &value) || *p != (s == IBZ_SLOTS - 1 ? 0 : ',')) return 0;
    ibz_set(b, s, value);
    p++;
  }
  return 1;
}

/* SLOT=VALUE with commas between them, or "-". */
static int change_slots(const char *p, uint8_t *b) {
  if (strcmp(p, "-") == 0) return 1;
  for (;;) {
    uint32_t s, value;
    if (!number(&p, 10, &s) || *p != '=' || s >= IBZ_SLOTS) return 0;
    p++;
    if (!number(&p, 16, &value)) return 0;
    ibz_set(b, s, value);
    if (*p == 0) return 1;
    if (*p++ != ',') return 0;
  }
}

/* The step, against what fields 8 to 10 say, and against its clocks if they are said. */
static const char *step_differs(char **f, const uint32_t *clocks, uint8_t *m, const uint8_t *w, size_t length, size_t next) {
  uint32_t level, vector;
  if (!whole(f[3], &level) || !whole(f[4], &vector) || vector > 255) return "no case";
  const struct ibz_step_answer a =
      ibz_step_keeping(block, sizeof block, lo, hi, m, length, rom, rom_length, level, (uint8_t)vector, journal, JOURNAL, MARK);
  if (a.number != 0) return "the step is refused";
  if (memcmp(block, goal, sizeof goal) != 0) return "slots after the step";
  if (memcmp(m, w, length) != 0) return "memory after the step";
  if (a.mark != next) return "mark after the step";
  if (memcmp(journal, record, JOURNAL) != 0) return "journal after the step";
  if (clocks != NULL && a.clocks != *clocks) return "clocks of the step";
  return NULL;
}

/* The undo, against what was before the step, or what fields 11 to 14 say. */
static const char *undo_differs(char **f, unsigned fields, uint8_t *m, uint8_t *w, size_t length, size_t next) {
  uint32_t refusal = 0, mark = MARK;
  put_runs(f[8], w, length, 1), put_runs(f[6], w, length, 0);
  if (fields == FIELDS_WITH_UNDO &&
      (!whole(f[10], &refusal) || !change_slots(f[11], start) || !put_runs(f[12], w, length, 0) || !whole(f[13], &mark)))
    return "no case";
  const struct ibz_undo_answer u = ibz_undo(block, sizeof block, lo, hi, m, length, rom, rom_length, journal, JOURNAL, next);
  if (u.number != refusal) return "number after the undo";
  if (memcmp(block, start, sizeof start) != 0) return "slots after the undo";
  if (memcmp(m, w, length) != 0) return "memory after the undo";
  if (u.mark != mark) return "mark after the undo";
  return NULL;
}

static const char *compared(char **f, unsigned fields, const uint32_t *clocks, uint8_t *m, uint8_t *w, size_t length) {
  if (!put_slots(f[5], block) || !put_runs(f[6], m, length, 0)) return "no case";
  memcpy(goal, block, sizeof goal), memcpy(start, block, sizeof start);
  put_runs(f[6], w, length, 0);
  memset(journal, 0xA5, JOURNAL), memset(record, 0xA5, JOURNAL);
  const size_t n = put_bytes(f[9], record + MARK, JOURNAL - MARK, 0);
  if (n == 0 || f[9][2 * n] != 0 || !change_slots(f[7], goal) || !put_runs(f[8], w, length, 0)) return "no case";
  const char *found = step_differs(f, clocks, m, w, length, MARK + n);
  return found != NULL ? found : undo_differs(f, fields, m, w, length, MARK + n);
}

/* What differs first, or NULL, of the fields of a line without its ROM. */
static const char *tried_on(char **f, unsigned fields) {
  uint32_t length, clocks, number_at_last, mark_at_last;
  const int fenced = fields > 1 && says_window(f[fields - 1]);
  if (fenced && !window_in(f[--fields])) return "no case";
  const int timed = fields == FIELDS + 1 || fields == FIELDS_WITH_UNDO + 1; /* the last field says the clocks */
  if (timed) fields--;
  if (fields != FIELDS && fields != FIELDS_WITH_UNDO) return "no case";
  if (fields == FIELDS_WITH_UNDO && (!whole(f[10], &number_at_last) || !whole(f[13], &mark_at_last))) return "no case"; /* before the step */
  if (timed && !clocks_in(f[fields], &clocks)) return "no case";
  if (!whole(f[2], &length) || length < LEAST || length > LARGEST || length % 2 != 0) return "no case";
  if (!fenced) lo = 0, hi = length;
  uint8_t *m = memory + (LARGEST - length), *w = wanted + (LARGEST - length); /* their ends are at the guards */
  const char *found = compared(f, fields, timed ? &clocks : NULL, m, w, length);
  put_runs(f[6], m, length, 1), put_runs(f[8], m, length, 1), put_runs(f[6], w, length, 1), put_runs(f[8], w, length, 1);
  if (found != NULL || fields == FIELDS_WITH_UNDO) memset(memory, 0, LARGEST), memset(wanted, 0, LARGEST);
  return found;
}

/* The same of a line. It is cut into its fields, so that its name is left. */
static const char *tried(char *line) {
  char *f[FIELDS_MOST];
  unsigned fields = 0;
  const size_t bytes = strcspn(line, "\n");
  for (line[bytes] = 0; line != NULL && fields < FIELDS_MOST; fields++) {
    f[fields] = line;
    line = strchr(line, ' ');
    if (line != NULL) *line++ = 0;
  }
  if (bytes > LONGEST || line != NULL) return "no case";
  rom = room + IBZ_ROM_MOST, rom_length = 0;
  if (fields < 2 || !says_rom(f[fields - 1])) return tried_on(f, fields);
  fields--;
  const char *found = rom_in(f[fields], 0) && says_window(f[fields - 1]) ? tried_on(f, fields) : "no case";
  rom_in(f[fields], 1); /* where it is none, as far as bytes of it were put */
  return found;
}

int main(int argc, char **argv) {
  static char line[1 << 20];
  int as_wanted = 1;
  memory = guarded(LARGEST, 1), wanted = guarded(LARGEST, 1), room = guarded(IBZ_ROM_MOST, 1);
  for (unsigned long n = 1; fgets(line, sizeof line, stdin) != NULL; n++) {
    const char *found = tried(line);
    if (found == NULL) holds++;
    else if (++fails <= TOLD) printf("line %lu %s: %s\n", n, line, found);
    if ((found != NULL) != (strncmp(line, "wrong:", 6) == 0)) as_wanted = 0;
  }
  if (argc > 2 && (holds != strtoul(argv[1], NULL, 10) || fails != strtoul(argv[2], NULL, 10))) as_wanted = 0;
  verdict("cases");
  return !as_wanted || holds == 0;
}
