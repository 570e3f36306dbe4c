/* forms.c - the conversions of a journal into form 2, for posting, and back (K8), held to forms.h: examples by hand, every kind of damage at
 * its edges, all short journals, every one-byte change of some, the longest record, random journals whole and damaged, and one that steps
 * wrote. Journal and target end where pages that can not be touched begin, or begin where they end: each is tried on both, the short ones by
 * turns. A call is held to this: number and length; every byte of the target, past the answer and after a refusal too; no byte of the
 * journal is altered.
 * Arguments: how many random journals, and a seed. */
#include "forms.h"

enum { JOURNAL = 65536, TARGET = 5 * JOURNAL };

/* Both fill their pages. Beside the target stand bytes that are not lent, on the side that is not guarded. */
static uint8_t *journals, *targets, wanted[TARGET];
static unsigned long done_in_all, refused_in_all;

static struct ibz_form_answer convert(unsigned to, const uint8_t *journal, size_t n, uint8_t *target, size_t room) {
  return to == 2 ? ibz_to_form_two(journal, n, target, room) : ibz_to_form_one(journal, n, target, room);
}

static int all_are(const uint8_t *p, size_t n, uint8_t byte) {
  for (size_t i = 0; i < n; i++)
    if (p[i] != byte) return 0;
  return 1;
}

/* One call, with so much room: `length` is that of `wanted`, or NOWHERE. */
static void one_call(unsigned to, const uint8_t *bytes, size_t n, size_t room, size_t length, int at_end) {
  static uint8_t paper;
  const size_t beside = TARGET - room < 64 ? TARGET - room : 64;
  uint8_t *const journal = at_end ? journals + JOURNAL - n : journals, *const target = at_end ? targets + TARGET - room : targets;
  uint8_t *const not_lent = at_end ? target - beside : target + room;
  const uint32_t number = length == NOWHERE ? 8 : length > room ? 11 : 0;
  const size_t written = number == 0 ? length : 0;
  paper = (uint8_t)(paper + 37); /* another one for each call: no answer looks like it for long */
  memcpy(journal, bytes, n), memset(target, paper, room), memset(not_lent, paper, beside);
  const struct ibz_form_answer a = convert(to, journal, n, target, room);
  EXPECT(a.number == number && a.length == written);
  EXPECT(memcmp(target, wanted, written) == 0);
  EXPECT(all_are(target + written, room - written, paper) && all_are(not_lent, beside, paper) && memcmp(journal, bytes, n) == 0);
  done_in_all += number == 0, refused_in_all += number != 0;
}

/* A journal with one room: what it needs, or some where a record is not well shaped. For those that are many. */
static size_t quick(unsigned to, const uint8_t *bytes, size_t n) {
  static int at_end;
  const size_t length = converted(to, bytes, n, wanted, TARGET);
  at_end = !at_end;
  one_call(to, bytes, n, length == NOWHERE ? n : length, length, at_end);
  return length;
}

/* A journal with no room, room for all, one byte less and more, and room by the header's rule. */
static size_t tried(unsigned to, const uint8_t *bytes, size_t n) {
  const size_t length = converted(to, bytes, n, wanted, TARGET), rule = to == 2 ? n + n / 2 : 5 * n;
  const size_t exact = length == NOWHERE ? n : length;
  for (int at_end = 0; at_end < 2; at_end++) {
    one_call(to, bytes, n, exact, length, at_end);
    if (exact > 0) one_call(to, bytes, n, exact - 1, length, at_end), one_call(to, bytes, n, 0, length, at_end);
    if (exact < TARGET) one_call(to, bytes, n, exact + 1, length, at_end);
    one_call(to, bytes, n, rule, length, at_end);
  }
  EXPECT(length == NOWHERE || length <= rule);
  return length;
}

/* There, and if all its records are well shaped, back: byte for byte. */
static size_t both_ways(unsigned to, const uint8_t *bytes, size_t n) {
  static uint8_t other[TARGET];
  const size_t length = tried(to, bytes, n);
  if (length == NOWHERE || length > JOURNAL) return length;
  memcpy(other, wanted, length);
  EXPECT(tried(3 - to, other, length) == n && memcmp(wanted, bytes, n) == 0);
  return length;
}

/* ---- by hand */

struct row {
  unsigned n;
  uint8_t bytes[24];
};

/* The same journal in form 1 and in form 2 (docs/FORMAT.md). */
static const struct row pairs[][2] = {
    {{0, {0}}, {0, {0}}},
    {{2, {0x00, 0x00}}, {2, {0x00, 0x00}}},
    {{7, {0x00, 0x00, 0x11, 0x04, 0x80, 0x02, 0x00}}, {7, {0x00, 0x00, 0x11, 0x04, 0x80, 0x02, 0x00}}},
    {{10, {0x11, 0x04, 0x80, 0x12, 0x00, 0x06, 0x80, 0x00, 0x02, 0x01}},
     {11, {0x11, 0x04, 0x80, 0x12, 0x00, 0x00, 0x06, 0x80, 0x01, 0x02, 0x01}}},
    {{12, {0x06, 0x80, 0x01, 0x06, 0x81, 0x02, 0x06, 0x83, 0x01, 0xFF, 0x00, 0x03}},
     {12, {0x01, 0x02, 0x06, 0x80, 0x02, 0x01, 0xFF, 0x06, 0x83, 0x01, 0x00, 0x02}}},
    {{4, {0x13, 0x00, 0x01, 0x00}}, {4, {0x13, 0x00, 0x01, 0x00}}},
    {{4, {0x00, 0x05, 0x00, 0x01}}, {5, {0x05, 0x00, 0x01, 0x00, 0x01}}}, /* address 0 */
    /* a run whose addresses have one byte and two: 127 and 128 */
    {{7, {0x7F, 0x01, 0x01, 0x80, 0x02, 0x00, 0x02}}, {6, {0x01, 0x02, 0x7F, 0x02, 0x00, 0x01}}},
    /* the last two addresses */
    {{13, {0x07, 0xFF, 0xFF, 0xFE, 0x01, 0xFF, 0x07, 0xFF, 0xFF, 0xFF, 0x00, 0x00, 0x02}},
     {10, {0x01, 0xFF, 0x00, 0x07, 0xFF, 0xFF, 0xFE, 0x02, 0x00, 0x01}}},
    /* three records in a row: a byte, nothing, a run */
    {{12, {0x05, 0x09, 0x00, 0x01, 0x00, 0x00, 0x05, 0x00, 0x06, 0x01, 0x00, 0x02}},
     {13, {0x09, 0x05, 0x01, 0x00, 0x01, 0x00, 0x00, 0x00, 0x01, 0x05, 0x02, 0x00, 0x01}}}};

static void by_hand(void) {
  for (unsigned i = 0; i < sizeof pairs / sizeof *pairs; i++) {
    const struct row *const one = &pairs[i][0], *const two = &pairs[i][1];
    EXPECT(both_ways(2, one->bytes, one->n) == two->n && both_ways(1, two->bytes, two->n) == one->n);
    EXPECT(tried(2, one->bytes, one->n) == two->n && memcmp(wanted, two->bytes, two->n) == 0);
    EXPECT(tried(1, two->bytes, two->n) == one->n && memcmp(wanted, one->bytes, one->n) == 0);
  }
}

/* ---- damage */

struct case_of {
  int shaped;
  unsigned n;
  uint8_t bytes[16];
};

/* Of either form: there is no memory byte in them. */
static const struct case_of slots[] = {
    {0, 1, {0x00}},                                                           /* begins before place 0: no second count */
    {0, 1, {0x80}},                                                           /* a number without its first group */
    {0, 2, {0x01, 0x00}},                                                     /* no slot */
    {0, 3, {0x05, 0x01, 0x00}},                                               /* an old value without its slot */
    {0, 4, {0x81, 0x05, 0x01, 0x00}},                                         /* a slot without its first group */
    {0, 2, {0x15, 0x00}},                                                     /* 21 slots */
    {0, 2, {0x00, 0x47}},                                                     /* 71 bytes or runs */
    {1, 6, {0x00, 0x00, 0x01, 0x00, 0x02, 0x00}},                             /* slots 0 and 1 */
    {0, 6, {0x01, 0x00, 0x00, 0x00, 0x02, 0x00}},                             /* slots that do not ascend */
    {0, 6, {0x01, 0x00, 0x01, 0x02, 0x02, 0x00}},                             /* a slot twice */
    {0, 4, {0x14, 0x00, 0x01, 0x00}},                                         /* slot 20 */
    {0, 8, {0x0F, 0xFF, 0xFF, 0xFF, 0xFF, 0x00, 0x01, 0x00}},                 /* slot 2^32 - 1 */
    {1, 6, {0x12, 0x02, 0xCE, 0x9F, 0x01, 0x00}},                             /* SR $A71F */
    {0, 4, {0x12, 0x20, 0x01, 0x00}},                                         /* SR with bit 5 */
    {0, 6, {0x12, 0x04, 0x80, 0x80, 0x01, 0x00}},                             /* SR with bit 16 */
    {0, 8, {0x12, 0x08, 0x80, 0x80, 0x80, 0x80, 0x01, 0x00}},                 /* SR with bit 31 */
    {1, 4, {0x13, 0x02, 0x01, 0x00}},                                         /* halted */
    {0, 4, {0x13, 0x03, 0x01, 0x00}},                                         /* mode 3 */
    {0, 8, {0x13, 0x08, 0x80, 0x80, 0x80, 0x80, 0x01, 0x00}},                 /* a mode of 2^31 */
    {1, 8, {0x00, 0x0F, 0xFF, 0xFF, 0xFF, 0xFF, 0x01, 0x00}},                 /* D0 of 2^32 - 1 */
    {0, 8, {0x00, 0x10, 0x80, 0x80, 0x80, 0x80, 0x01, 0x00}},                 /* a number of 33 bits */
    {0, 9, {0x00, 0x01, 0x80, 0x80, 0x80, 0x80, 0x80, 0x01, 0x00}},           /* six groups */
    {0, 9, {0x00, 0x00, 0x80, 0x80, 0x80, 0x80, 0x85, 0x01, 0x00}},           /* six groups of a small number */
    {0, 3, {0x00, 0x00, 0x80}},                                               /* not the shortest: the last count, */
    {0, 3, {0x00, 0x80, 0x00}},                                               /* the count of slots, */
    {0, 5, {0x00, 0x00, 0x80, 0x01, 0x00}},                                   /* an old value, */
    {0, 5, {0x00, 0x80, 0x00, 0x01, 0x00}}};                                  /* a slot */

static const struct case_of ones[] = {
    {0, 2, {0x00, 0x01}},                                                     /* no byte */
    {0, 3, {0x05, 0x00, 0x01}},                                               /* an old byte without its address */
    {1, 6, {0x00, 0x01, 0x01, 0x01, 0x00, 0x02}},                             /* addresses 0 and 1 */
    {0, 6, {0x01, 0x01, 0x00, 0x01, 0x00, 0x02}},                             /* addresses that do not ascend */
    {0, 6, {0x05, 0x01, 0x05, 0x02, 0x00, 0x02}},                             /* an address twice */
    {1, 5, {0x00, 0x01, 0xFF, 0x00, 0x01}},                                   /* an old byte of 255 */
    {0, 5, {0x00, 0x02, 0x80, 0x00, 0x01}},                                   /* of 256 */
    {1, 7, {0x07, 0xFF, 0xFF, 0xFF, 0x00, 0x00, 0x01}},                       /* address 16,777,215 */
    {0, 7, {0x08, 0x80, 0x80, 0x80, 0x00, 0x00, 0x01}},                       /* 16,777,216 */
    {0, 8, {0x0F, 0xFF, 0xFF, 0xFF, 0xFF, 0x00, 0x00, 0x01}},                 /* 2^32 - 1 */
    {0, 8, {0x10, 0x80, 0x80, 0x80, 0x80, 0x00, 0x00, 0x01}},                 /* 2^32 */
    {0, 5, {0x00, 0x85, 0x05, 0x00, 0x01}},                                   /* not the shortest: an address, */
    {0, 5, {0x05, 0x00, 0x85, 0x00, 0x01}},                                   /* an old byte */
    {0, 6, {0x05, 0x09, 0x05, 0x01, 0x00, 0x01}}};                            /* one of form 2: 05 09 is no record */

static const struct case_of twos[] = {
    {0, 2, {0x00, 0x01}},                                                     /* no run */
    {0, 3, {0x01, 0x00, 0x01}},                                               /* a length alone */
    {0, 4, {0x05, 0x01, 0x00, 0x01}},                                         /* no old byte */
    {0, 5, {0x09, 0x05, 0x02, 0x00, 0x01}},                                   /* one of two */
    {0, 4, {0x05, 0x00, 0x00, 0x01}},                                         /* an empty run */
    {0, 7, {0x05, 0x00, 0x09, 0x07, 0x01, 0x00, 0x02}},                       /* an empty run before another, */
    {0, 7, {0x09, 0x07, 0x01, 0x0A, 0x00, 0x00, 0x02}},                       /* and after it */
    {0, 8, {0x01, 0x05, 0x01, 0x02, 0x06, 0x01, 0x00, 0x02}},                 /* runs that touch */
    {1, 8, {0x01, 0x05, 0x01, 0x02, 0x07, 0x01, 0x00, 0x02}},                 /* one address between them */
    {0, 9, {0x01, 0x02, 0x05, 0x02, 0x03, 0x07, 0x01, 0x00, 0x02}},           /* longer ones that touch, */
    {0, 9, {0x01, 0x02, 0x05, 0x02, 0x03, 0x06, 0x01, 0x00, 0x02}},           /* that overlap, */
    {1, 9, {0x01, 0x02, 0x05, 0x02, 0x03, 0x08, 0x01, 0x00, 0x02}},           /* and do not */
    {0, 8, {0x01, 0x05, 0x01, 0x02, 0x05, 0x01, 0x00, 0x02}},                 /* two at one address */
    {0, 8, {0x01, 0x07, 0x01, 0x02, 0x05, 0x01, 0x00, 0x02}},                 /* runs that do not ascend */
    {1, 6, {0x01, 0xFF, 0x05, 0x01, 0x00, 0x01}},                             /* an old byte of 255 */
    {0, 6, {0x02, 0x80, 0x05, 0x01, 0x00, 0x01}},                             /* of 256 */
    {1, 8, {0x00, 0x07, 0xFF, 0xFF, 0xFF, 0x01, 0x00, 0x01}},                 /* address 16,777,215 */
    {0, 8, {0x00, 0x08, 0x80, 0x80, 0x80, 0x01, 0x00, 0x01}},                 /* 16,777,216 */
    {1, 9, {0x00, 0x00, 0x07, 0xFF, 0xFF, 0xFE, 0x02, 0x00, 0x01}},           /* a run up to 16,777,215 */
    {0, 9, {0x00, 0x00, 0x07, 0xFF, 0xFF, 0xFF, 0x02, 0x00, 0x01}},           /* over it */
    {0, 9, {0x00, 0x0F, 0xFF, 0xFF, 0xFF, 0xFF, 0x01, 0x00, 0x01}},           /* address 2^32 - 1, */
    {0, 10, {0x00, 0x00, 0x0F, 0xFF, 0xFF, 0xFF, 0xFF, 0x02, 0x00, 0x01}},    /* and over it: the sum does not begin anew at 0 */
    {0, 9, {0x09, 0x05, 0x0F, 0xFF, 0xFF, 0xFF, 0xFF, 0x00, 0x01}},           /* a length of 2^32 - 1 */
    {0, 9, {0x09, 0x05, 0x10, 0x80, 0x80, 0x80, 0x81, 0x00, 0x01}},           /* of 2^32 + 1 */
    {0, 6, {0x05, 0x05, 0x00, 0x81, 0x00, 0x01}},                             /* not the shortest: a length, */
    {0, 6, {0x05, 0x00, 0x85, 0x01, 0x00, 0x01}},                             /* an address, */
    {0, 6, {0x00, 0x85, 0x05, 0x01, 0x00, 0x01}},                             /* an old byte */
    {0, 4, {0x05, 0x09, 0x00, 0x01}}};                                        /* one of form 1: a run of 9 */

/* Alone, and with records of 00 00 after it: it is on the way back all the same. After another record it may be read as the end of that
 * one, and be whole with it; where it is whole by itself the two are. */
static void one_case(unsigned to, const struct case_of *c) {
  const struct row *const before = &pairs[3][2 - to];
  uint8_t bytes[64] = {0};
  memcpy(bytes, c->bytes, c->n);
  for (unsigned after = 0; after < 6; after += 2) EXPECT((both_ways(to, bytes, c->n + after) != NOWHERE) == c->shaped);
  memcpy(bytes, before->bytes, before->n);
  memcpy(bytes + before->n, c->bytes, c->n);
  EXPECT(both_ways(to, bytes, before->n + c->n) != NOWHERE || !c->shaped);
}

static void damages(void) {
  for (unsigned i = 0; i < sizeof slots / sizeof *slots; i++) one_case(1, &slots[i]), one_case(2, &slots[i]);
  for (unsigned i = 0; i < sizeof ones / sizeof *ones; i++) one_case(2, &ones[i]);
  for (unsigned i = 0; i < sizeof twos / sizeof *twos; i++) one_case(1, &twos[i]);
}

/* ---- many bytes: 70 are in a record at most, and the longest has 536 bytes and 606 */

/* A record of form 2 with `runs` runs of `n` bytes each, and with one more of `more` bytes. */
static size_t runs_of(uint8_t *to, uint32_t runs, uint32_t n, uint32_t more) {
  size_t at = 0;
  for (uint32_t i = 0; i < runs + (more > 0); i++) {
    const uint32_t k = i < runs ? n : more;
    for (uint32_t b = 0; b < k; b++) at += put_number(to + at, 200 - b);
    at += put_number(to + at, 5 + i * 100);
    at += put_number(to + at, k);
  }
  at += put_number(to + at, 0);
  return at + put_number(to + at, runs + (more > 0));
}

static void limits(void) {
  static uint8_t bytes[8 * SCRATCH];
  static struct record r;
  size_t n = 0;
  for (uint32_t i = 0; i < 71; i++) { /* form 1 of 70 bytes, and of 71 */
    if (i == 70) {
      n += put_number(bytes + n, 0), n += put_number(bytes + n, 70);
      EXPECT(both_ways(2, bytes, n) != NOWHERE);
      n -= 2;
    }
    n += put_number(bytes + n, 300 + 2 * i), n += put_number(bytes + n, 7);
  }
  n += put_number(bytes + n, 0), n += put_number(bytes + n, 71);
  EXPECT(both_ways(2, bytes, n) == NOWHERE);
  static const struct { uint32_t runs, n, more; } sums[] = {{1, 70, 0}, {1, 71, 0}, {2, 35, 0},  {2, 35, 1}, {70, 1, 0}, {71, 1, 0},
                                                            {69, 1, 1}, {69, 1, 2}, {1, 127, 0}, {1, 1, 69}, {1, 1, 70}, {1, 69, 1}};
  for (unsigned i = 0; i < sizeof sums / sizeof *sums; i++) {
    const size_t length = both_ways(1, bytes, runs_of(bytes, sums[i].runs, sums[i].n, sums[i].more));
    EXPECT((length != NOWHERE) == (sums[i].runs * sums[i].n + sums[i].more <= 70));
  }
  r.slots = SLOTS_MOST, r.bytes = BYTES_MOST;
  for (uint32_t i = 0; i < SLOTS_MOST; i++) r.slot[i].place = i, r.slot[i].old = i == IBZ_SR ? 0xA71F : i == IBZ_MODE ? 2 : 0xFFFFFFFFu;
  for (uint32_t i = 0; i < BYTES_MOST; i++) r.byte[i].place = ADDRESSES - 1 - 2 * (BYTES_MOST - 1 - i), r.byte[i].old = 255 - i;
  EXPECT(put_one(bytes, &r) == 536 && both_ways(2, bytes, 536) == 606 && IBZ_RECORD_MOST == 536);
  EXPECT(put_two(bytes, &r) == 606 && both_ways(1, bytes, 606) == 536 && IBZ_RECORD_TWO_MOST == 606);
  for (n = 0; n < 5 * 606; n += 606) put_two(bytes + n, &r);
  EXPECT(both_ways(1, bytes, n) == 5 * 536);
  /* the header's rules where they are nearest: 64 of 70 single bytes at addresses of one byte; one run of 70 at addresses of four */
  r.slots = 0;
  for (uint32_t i = 0; i < BYTES_MOST; i++) r.byte[i].place = 2 * i, r.byte[i].old = 1;
  EXPECT(both_ways(2, bytes, put_one(bytes, &r)) == 218 && put_one(bytes, &r) == 148);
  for (uint32_t i = 0; i < BYTES_MOST; i++) r.byte[i].place = 0x200000 + i;
  EXPECT(both_ways(1, bytes, put_two(bytes, &r)) == 352 && put_two(bytes, &r) == 77);
}

/* ---- all of a kind */

/* Every journal of up to two bytes, and up to six of the bytes that are at the rules' edges; every one-byte change of six records in a row. */
static void all_short(void) {
  static const uint8_t edges[] = {0x00, 0x01, 0x02, 0x05, 0x80, 0x81};
  uint8_t bytes[64];
  for (unsigned to = 1; to <= 2; to++) {
    for (unsigned v = 0; v < 65536; v++) {
      bytes[0] = (uint8_t)v, bytes[1] = (uint8_t)(v >> 8);
      quick(to, bytes, 2);
      if (v < 256) quick(to, bytes, 1);
    }
    for (unsigned n = 3, all = 216; n <= 6; n++, all *= 6)
      for (unsigned v = 0; v < all; v++) {
        for (unsigned i = 0, rest = v; i < n; i++, rest /= 6) bytes[i] = edges[rest % 6];
        quick(to, bytes, n);
      }
    size_t n = 0;
    for (unsigned i = 3; i < 9; i++) memcpy(bytes + n, pairs[i][2 - to].bytes, pairs[i][2 - to].n), n += pairs[i][2 - to].n;
    for (size_t i = 0; i < n; i++) {
      const uint8_t was = bytes[i];
      for (unsigned v = 0; v < 256; v++) bytes[i] = (uint8_t)v, quick(to, bytes, n);
      bytes[i] = was;
    }
  }
}

static void empty(void) {
  static const uint8_t good[] = {0x00, 0x00}, bad[] = {0x00};
  uint8_t *const target = targets + TARGET - 8;
  memset(target, 0xEE, 8);
  for (unsigned to = 1; to <= 2; to++) {
    struct ibz_form_answer a = convert(to, NULL, 0, NULL, 0);
    EXPECT(a.number == 0 && a.length == 0);
    a = convert(to, NULL, 0, target, 8);
    EXPECT(a.number == 0 && a.length == 0 && all_are(target, 8, 0xEE));
    a = convert(to, good, sizeof good, NULL, 0);
    EXPECT(a.number == IBZ_TARGET_SHORT && a.length == 0);
    a = convert(to, bad, sizeof bad, NULL, 0);
    EXPECT(a.number == IBZ_BAD_RECORD && a.length == 0);
  }
}

/* ---- random journals */

static void random_record(struct record *r) {
  const uint32_t many = below(3) ? below(6) : below(SLOTS_MOST + 1), width = below(4), longest = below(3) ? 1 + below(4) : 70;
  r->slots = r->bytes = 0;
  for (uint32_t s = 0; s < SLOTS_MOST; s++)
    if (below(SLOTS_MOST) < many) {
      const uint32_t v = any() >> below(32);
      r->slot[r->slots].place = s;
      r->slot[r->slots++].old = s == IBZ_SR ? v & 0xA71Fu : s == IBZ_MODE ? below(3) : v;
    }
  uint32_t place = below(8) == 0 ? ADDRESSES - 1 - below(100) : below((uint32_t)128 << 7 * width) % ADDRESSES;
  for (uint32_t left = below(3) ? below(9) : below(BYTES_MOST + 1); left > 0 && place < ADDRESSES;) {
    for (uint32_t run = 1 + below(longest); run > 0 && left > 0 && place < ADDRESSES; run--, left--, place++) {
      r->byte[r->bytes].place = place;
      r->byte[r->bytes++].old = below(256);
    }
    place += below(2) ? 1 : below(2) ? 1 + below(200) : 1 + below(ADDRESSES);
  }
}

/* So many records, or fewer where there is no room for the next; its length. */
static size_t random_journal(unsigned form, uint8_t *to, uint32_t records) {
  struct record r;
  size_t n = 0;
  for (; records > 0 && n + IBZ_RECORD_TWO_MOST <= JOURNAL; records--) {
    random_record(&r);
    n += form == 1 ? put_one(to + n, &r) : put_two(to + n, &r);
  }
  return n;
}

/* Its length after that. The buffer has room for one more. */
static size_t damaged(uint8_t *bytes, size_t n) {
  const size_t at = below((uint32_t)n);
  switch (below(6)) {
  case 0: bytes[at] = (uint8_t)any(); return n;
  case 1: bytes[at] ^= (uint8_t)(1u << below(8)); return n;
  case 2: bytes[at] = (uint8_t)(bytes[at] + 1); return n;
  case 3: memmove(bytes + at, bytes + at + 1, n - at - 1); return n - 1;
  case 4: memmove(bytes + at + 1, bytes + at, n - at), bytes[at] = (uint8_t)(below(2) ? any() : below(4)); return n + 1;
  default: memmove(bytes, bytes + at, n - at); return n - at; /* the oldest are cut off */
  }
}

static void randoms(unsigned long journals_in_all) {
  static uint8_t bytes[JOURNAL + 8];
  unsigned long whole = 0;
  if (journals_in_all > 0) { /* the most records that find place; and one byte of 00 that is no record */
    EXPECT(quick(2, bytes, JOURNAL) == JOURNAL && quick(1, bytes, JOURNAL) == JOURNAL);
    EXPECT(quick(2, bytes, JOURNAL - 1) == NOWHERE && quick(1, bytes, JOURNAL - 1) == NOWHERE);
  }
  for (unsigned long i = 0; i < journals_in_all && fails <= 20; i++) {
    const unsigned form = 1 + below(2);
    size_t n = random_journal(form, bytes, i % 256 == 255 ? 60000 : below(3) ? below(4) : below(30));
    const size_t length = both_ways(3 - form, bytes, n);
    EXPECT(length != NOWHERE);
    for (unsigned k = 1 + below(3); k > 0 && n > 0; k--) n = damaged(bytes, n);
    whole += both_ways(3 - form, bytes, n) != NOWHERE;
    both_ways(form, bytes, n); /* taken for the other form */
  }
  printf("damaged journals that are whole: %lu of %lu\n", whole, journals_in_all);
}

/* ---- a journal that steps wrote, converted into form 2 and back, takes them back */

static void of_steps(void) {
  enum { MEMORY = 4096, STEPS = 100, BLOCK = IBZ_BLOCK_LENGTH };
  static const uint16_t words[] = {0x4681, 0x48F8, 0x7FFF, 0x0900, 0x46B8, 0x0A00, 0x4E40, 0x5242, 0x60EE}; /* NOT.L MOVEM NOT.L TRAP ADDQ BRA */
  static uint8_t block[BLOCK], memory[MEMORY], journal[JOURNAL], again[JOURNAL], start[BLOCK], old[MEMORY];
  memset(block, 0, BLOCK), memset(memory, 0, MEMORY);
  for (unsigned i = 0; i < 15; i++) ibz_set(block, i, 0x01020304u * (i + 1));
  ibz_set(block, IBZ_PC, 0x400), ibz_set(block, IBZ_SSP, 0xC00), ibz_set(block, IBZ_SR, 0x2000);
  for (unsigned i = 0; i < sizeof words / sizeof *words; i++)
    memory[0x400 + 2 * i] = (uint8_t)(words[i] >> 8), memory[0x401 + 2 * i] = (uint8_t)words[i];
  memory[32 * 4 + 2] = 3, memory[0x300] = 0x4E, memory[0x301] = 0x73; /* TRAP #0's handler: RTE */
  memcpy(start, block, BLOCK), memcpy(old, memory, MEMORY);
  const struct ibz_run_answer a = ibz_run_keeping(block, BLOCK, 0, MEMORY, memory, MEMORY, IBZ_NO_ROM, STEPS, 0xFFFFFFFFu, journal, JOURNAL, 0);
  EXPECT(a.number == 0 && a.steps == STEPS && a.mark > 0);
  const size_t length = both_ways(2, journal, a.mark);
  EXPECT(length < a.mark); /* sixty bytes in one run */
  const struct ibz_form_answer two = ibz_to_form_two(journal, a.mark, wanted, TARGET);
  const struct ibz_form_answer one = ibz_to_form_one(wanted, two.length, again, JOURNAL);
  EXPECT(two.number == 0 && two.length == length && one.number == 0 && one.length == a.mark);
  size_t mark = one.length;
  for (unsigned i = 0; i < STEPS; i++) {
    const struct ibz_undo_answer u = ibz_undo(block, BLOCK, 0, MEMORY, memory, MEMORY, IBZ_NO_ROM, again, JOURNAL, mark);
    EXPECT(u.number == 0);
    mark = u.mark;
  }
  EXPECT(mark == 0 && memcmp(block, start, BLOCK) == 0 && memcmp(memory, old, MEMORY) == 0);
}

int main(int argc, char **argv) {
  const unsigned long count = argc > 1 ? strtoul(argv[1], NULL, 10) : 2000;
  if (argc > 2) seed ^= strtoul(argv[2], NULL, 10) * 2654435761u;
  journals = guarded(JOURNAL, 0), targets = guarded(TARGET, 0);
  empty();
  by_hand();
  damages();
  limits();
  of_steps();
  if (fails == 0) all_short();
  randoms(count);
  printf("conversions: %lu done, %lu refused\n", done_in_all, refused_in_all);
  return verdict("forms");
}
