// The parity rows of one stripe, in cache: our kernel beside the peers'.
#include <string.h>

#include "cases.h"
#include "lend.h"
#include "ours.h"

struct rows {
  struct matrix m;
  uint8_t *stripe;  // columns, then rows
  size_t length;
  size_t at[MOST_BLOCKS], row_at[MOST_ROWS];
  uint8_t *from[MOST_BLOCKS], *to[MOST_ROWS];
};

static void restore(void *work) {
  struct rows *t = work;
  memset(t->to[0], 0, t->m.rows * t->m.block);
}

static void run(void *work, enum contestant who, size_t repeats) {
  struct rows *t = work;
  for (size_t i = 0; i < repeats; i++)
    if (who == OURS)
      our_rows(&t->m, t->stripe, t->length, t->at, t->row_at);
    else
      peers[who].multiply(&t->m, t->from, t->to);
}

struct contest make_rows(size_t k, size_t r, size_t x, size_t b) {
  (void)x;
  struct rows *t = lend(sizeof *t);
  t->m = rows_of(r, 0, k, b);
  t->length = (k + r) * b;
  t->stripe = lend(t->length);
  fill(t->stripe, k * b);
  for (size_t c = 0; c < k; c++) t->at[c] = c * b, t->from[c] = t->stripe + c * b;
  for (size_t j = 0; j < r; j++) t->row_at[j] = (k + j) * b, t->to[j] = t->stripe + (k + j) * b;
  struct contest c = {.enters = 1 << OURS | KERNELS, .stripes = 1, .repeats = repeats_for(k * b), .rounds = IN_CACHE_ROUNDS, .work = t};
  c.restore = restore, c.run = run, c.result = t->stripe, c.length = t->length;
  return c;
}
