// The call read for every data block of a store, of which half of the transfers of its growth are made, or which is closed. It tells
// where the block is; the block there must be the one that the store was filled with.
#include <string.h>

#include "calls.h"
#include "cases.h"
#include "lend.h"
#include "taldrimsu.h"

struct reads {
  struct held now;
  uint64_t *answers;  // stripe after stripe, column after column
  size_t calls;
};

static void restore(void *work) {
  struct reads *t = work;
  memset(t->answers, 0xFF, t->calls * sizeof *t->answers);
}

static void run(void *work, enum contestant who, size_t repeats) {
  struct reads *t = work;
  struct store *z = &t->now.z;
  (void)who, (void)repeats;
  for (size_t g = 0; g < z->stripes; g++)
    for (size_t d = 0; d < z->k; d++)
      t->answers[g * z->k + d] = taldrimsu_read(z->n, z->k, z->s, z->b, t->now.area, z->bytes, t->now.book, t->now.words, g, d);
}

// `filled` has every block in its first place.
static void compare_blocks(struct reads *t, const struct held *filled) {
  struct store *z = &t->now.z;
  restore(t);
  run(t, OURS, 1);
  for (size_t g = 0; g < z->stripes; g++)
    for (size_t d = 0; d < z->k; d++) {
      uint64_t answer = t->answers[g * z->k + d];
      expect("read", taldrimsu_code_of(answer), TALDRIMSU_DONE);
      int differs = memcmp(t->now.area + taldrimsu_value_of(answer), filled->area + column_at(z, g, d), z->b);
      expect("the comparison of a block with the one that read tells", differs != 0, 0);
    }
}

static struct contest make_read(size_t k, size_t r, size_t b, bool closed) {
  struct reads *t = lend(sizeof *t);
  struct store z = store_of(k, r, 1, b);
  struct held filled = lend_begun(&z);
  t->now = lend_store(&z), t->calls = z.stripes * k;
  t->answers = lend(t->calls * sizeof *t->answers);
  copy_store(&t->now, &filled);
  if (closed)
    call_drive(&t->now), call_close(&t->now);
  else
    call_drive_part(&t->now, transfers_of(&z) / 2);
  compare_blocks(t, &filled);
  struct contest c = {.enters = 1 << OURS, .stripes = t->calls, .repeats = 1, .rounds = STORE_ROUNDS, .work = t};
  c.restore = restore, c.run = run, c.result = (uint8_t *)t->answers, c.length = t->calls * sizeof *t->answers;
  return c;
}

struct contest make_read_open(size_t k, size_t r, size_t x, size_t b) {
  (void)x;
  return make_read(k, r, b, false);
}

struct contest make_read_closed(size_t k, size_t r, size_t x, size_t b) {
  (void)x;
  return make_read(k, r, b, true);
}
