/* reader.h - a reader and writer of the journal by docs/FORMAT.md, and K5's room in it, to hold the calls to: where records begin, which of
 * them are well shaped, which of the oldest have to go, and what the record of a step is. It calls nothing of the library. */
#ifndef READER_H
#define READER_H
#include "tests.h"

/* ---- reading: from the end, docs/FORMAT.md sections 2 to 5 */

/* The number whose last byte is just below *end; *end is then the place of its first byte. 0 if none ends there. */
static inline int take_number(const uint8_t *journal, size_t *end, uint32_t *value) {
  uint64_t v = 0;
  for (unsigned groups = 0; groups < 5; groups++) {
    if (*end == 0) return 0; /* it would begin before place 0 */
    const uint8_t byte = journal[--*end];
    v |= (uint64_t)(byte & 127u) << 7 * groups;
    if (byte >= 128) continue;
    *value = (uint32_t)v;
    return (byte != 0 || groups == 0) && v <= 0xFFFFFFFFu; /* the shortest form, and 32 bits */
  }
  return 0;
}

static inline int slot_allows(uint32_t slot, uint32_t value) {
  return slot == IBZ_SR ? (value & ~0xA71Fu) == 0 : slot == IBZ_MODE ? value <= 2 : 1;
}

/* `count` entries downwards: each place is below `limit`, and below the one that was read before it. */
static inline int take_entries(const uint8_t *journal, size_t *end, uint32_t count, size_t limit, int are_slots) {
  for (; count > 0; count--) {
    uint32_t old, place;
    if (!take_number(journal, end, &old) || !take_number(journal, end, &place) || place >= limit) return 0;
    if (are_slots ? !slot_allows(place, old) : old > 255) return 0;
    limit = place;
  }
  return 1;
}

/* Where the record that ends at `end` begins; NOWHERE if none that is well shaped ends there. */
#define NOWHERE SIZE_MAX

static inline size_t begins(const uint8_t *journal, size_t end, size_t memory_length) {
  uint32_t bytes, slots;
  if (!take_number(journal, &end, &bytes) || !take_number(journal, &end, &slots) || bytes > 70 || slots > 20) return NOWHERE;
  if (!take_entries(journal, &end, bytes, memory_length, 0) || !take_entries(journal, &end, slots, IBZ_SLOTS, 1)) return NOWHERE;
  return end;
}

/* How many records stand below the mark, all the way back to place 0; NOWHERE if one of them is not well shaped. */
static inline size_t records_below(const uint8_t *journal, size_t mark, size_t memory_length) {
  size_t n = 0;
  for (; mark > 0; n++) {
    mark = begins(journal, mark, memory_length);
    if (mark == NOWHERE) return NOWHERE;
  }
  return n;
}

/* ---- room: K5 */

enum { ROOM = 536 };

struct room {
  uint32_t number; /* 0, 5 or 8 */
  size_t mark, moved, dropped;
};

/* Makes room in a journal whose mark is within it: of all places where a record begins, and of the mark, the lowest from which on the
 * records leave 536 bytes free. What is below it is dropped, what is above it goes to place 0. */
static inline struct room make_room(uint8_t *journal, size_t length, size_t mark, size_t memory_length) {
  struct room r = {0, mark, 0, 0};
  size_t cut = mark, all = 0, stay = 0;
  if (length < ROOM) r.number = 5;
  if (length < ROOM || length - mark >= ROOM) return r; /* with room enough nothing is judged */
  for (size_t at = mark; at > 0;) {
    at = begins(journal, at, memory_length);
    if (at == NOWHERE) {
      r.number = 8;
      return r;
    }
    all++;
    if (length - (mark - at) >= ROOM) cut = at, stay = all;
  }
  r.mark = r.moved = mark - cut;
  r.dropped = all - stay;
  memmove(journal, journal + cut, mark - cut);
  return r;
}

/* ---- writing: the record by which a step is taken back, docs/FORMAT.md section 3 */

static inline size_t put_number(uint8_t *to, uint32_t v) {
  size_t n = 1;
  for (uint32_t rest = v >> 7; rest != 0; rest >>= 7) n++;
  for (size_t i = n; i-- > 0; v >>= 7) to[i] = (uint8_t)((v & 127u) | (i == 0 ? 0u : 128u));
  return n;
}

/* Its length. */
static inline size_t put_record(uint8_t *to, const uint8_t *block, const uint8_t *next_block, const uint8_t *memory,
                                const uint8_t *next_memory, size_t memory_length) {
  size_t n = 0;
  uint32_t slots = 0, bytes = 0;
  for (unsigned s = 0; s < IBZ_SLOTS; s++)
    if (ibz_get(block, s) != ibz_get(next_block, s)) {
      n += put_number(to + n, s);
      n += put_number(to + n, ibz_get(block, s));
      slots++;
    }
  for (uint32_t i = 0; i < memory_length; i++)
    if (memory[i] != next_memory[i]) {
      n += put_number(to + n, i);
      n += put_number(to + n, memory[i]);
      bytes++;
    }
  n += put_number(to + n, slots);
  return n + put_number(to + n, bytes);
}
#endif
