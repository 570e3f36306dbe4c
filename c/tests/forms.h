/* forms.h - a journal's two forms by K8's words and docs/FORMAT.md, to hold the conversions to: a record taken apart and put together in
 * either form, and a whole journal converted. Form 1's shape is that of reader.h. Form 2 is judged as K8 says it: bytes are a well-shaped
 * record of form 2 exactly if they are what a well-shaped record of form 1 becomes. So there are no rules for runs here. It calls nothing
 * of the library. */
#ifndef FORMS_H
#define FORMS_H
#include "reader.h"

enum { SLOTS_MOST = 20, BYTES_MOST = 70, ADDRESSES = 16777216, SCRATCH = 2048 };

struct entry {
  uint32_t place, old;
};

/* A record of either form: what was changed, ascending. */
struct record {
  uint32_t slots, bytes;
  struct entry slot[SLOTS_MOST], byte[BYTES_MOST];
};

/* ---- put together; each gives the length */

static inline size_t put_entries(uint8_t *to, const struct entry *e, uint32_t count) {
  size_t n = 0;
  for (uint32_t i = 0; i < count; i++) {
    n += put_number(to + n, e[i].place);
    n += put_number(to + n, e[i].old);
  }
  return n;
}

static inline size_t put_one(uint8_t *to, const struct record *r) {
  size_t n = put_entries(to, r->slot, r->slots);
  n += put_entries(to + n, r->byte, r->bytes);
  n += put_number(to + n, r->slots);
  return n + put_number(to + n, r->bytes);
}

static inline size_t put_two(uint8_t *to, const struct record *r) {
  size_t n = put_entries(to, r->slot, r->slots);
  uint32_t runs = 0;
  for (uint32_t i = 0, k = 0; i < r->bytes; i = k, runs++) {
    for (; k < r->bytes && r->byte[k].place == r->byte[i].place + (k - i); k++) n += put_number(to + n, r->byte[k].old);
    n += put_number(to + n, r->byte[i].place);
    n += put_number(to + n, k - i);
  }
  n += put_number(to + n, r->slots);
  return n + put_number(to + n, runs);
}

/* ---- taken apart; each gives where the record that ends at `end` begins, or NOWHERE */

static inline int take_places(const uint8_t *journal, size_t *end, struct entry *e, uint32_t count) {
  while (count-- > 0)
    if (!take_number(journal, end, &e[count].old) || !take_number(journal, end, &e[count].place)) return 0;
  return 1;
}

static inline size_t take_one(const uint8_t *journal, size_t end, struct record *r) {
  if (begins(journal, end, ADDRESSES) == NOWHERE) return NOWHERE;
  if (!take_number(journal, &end, &r->bytes) || !take_number(journal, &end, &r->slots)) return NOWHERE;
  return take_places(journal, &end, r->byte, r->bytes) && take_places(journal, &end, r->slot, r->slots) ? end : NOWHERE;
}

/* Runs, the last first; `first` is the lowest of the bytes read so far. Nothing is judged but that they find room. */
static inline int take_runs(const uint8_t *journal, size_t *end, uint32_t runs, struct record *r) {
  uint32_t first = BYTES_MOST;
  for (; runs > 0; runs--) {
    uint32_t n, address;
    if (!take_number(journal, end, &n) || !take_number(journal, end, &address) || n > first) return 0;
    while (n-- > 0) {
      first--;
      r->byte[first].place = address + n;
      if (!take_number(journal, end, &r->byte[first].old)) return 0;
    }
  }
  r->bytes = BYTES_MOST - first;
  memmove(r->byte, r->byte + first, r->bytes * sizeof *r->byte);
  return 1;
}

static inline size_t take_two(const uint8_t *journal, size_t end, struct record *r) {
  static uint8_t one[SCRATCH], two[SCRATCH];
  size_t at = end;
  uint32_t runs;
  if (!take_number(journal, &at, &runs) || !take_number(journal, &at, &r->slots) || runs > BYTES_MOST || r->slots > SLOTS_MOST)
    return NOWHERE;
  if (!take_runs(journal, &at, runs, r) || !take_places(journal, &at, r->slot, r->slots)) return NOWHERE;
  if (begins(one, put_one(one, r), ADDRESSES) != 0) return NOWHERE;
  return put_two(two, r) == end - at && memcmp(two, journal + at, end - at) == 0 ? at : NOWHERE;
}

/* ---- a whole journal */

/* In form `to`, 1 or 2, at the start of `other`, which has room for it: its length, or NOWHERE if a record is not well shaped. It is put
 * together from the end of the room, as it is read. */
static inline size_t converted(unsigned to, const uint8_t *journal, size_t length, uint8_t *other, size_t room) {
  static uint8_t bytes[SCRATCH];
  struct record r;
  size_t low = room;
  while (length > 0) {
    length = to == 2 ? take_one(journal, length, &r) : take_two(journal, length, &r);
    if (length == NOWHERE) return NOWHERE;
    const size_t n = to == 2 ? put_two(bytes, &r) : put_one(bytes, &r);
    if (n > low) {
      puts("no room for the other form");
      exit(2);
    }
    low -= n;
    memcpy(other + low, bytes, n);
  }
  memmove(other, other + low, room - low);
  return room - low;
}
#endif
