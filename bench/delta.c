// The deltas of all rows of one stripe from its s new blocks, in cache: the kernel that compute and send run, beside the peers'.
#include <string.h>

#include "cases.h"
#include "lend.h"
#include "ours.h"

struct deltas {
  struct matrix m;
  size_t k;
  uint8_t *new, *deltas;
  size_t at[MOST_BLOCKS];
  uint8_t *from[MOST_BLOCKS], *to[MOST_ROWS];
};

static void restore(void *work) {
  struct deltas *t = work;
  memset(t->deltas, 0, t->m.rows * t->m.block);
}

static void run(void *work, enum contestant who, size_t repeats) {
  struct deltas *t = work;
  for (size_t i = 0; i < repeats; i++)
    if (who == OURS)
      our_deltas(&t->m, t->deltas, t->new, t->m.columns * t->m.block, t->at, t->k);
    else
      peers[who].multiply(&t->m, t->from, t->to);
}

struct contest make_delta(size_t k, size_t r, size_t s, size_t b) {
  struct deltas *t = lend(sizeof *t);
  t->m = rows_of(r, k, s, b);
  t->k = k;
  t->new = lend(s * b);
  t->deltas = lend(r * b);
  fill(t->new, s * b);
  for (size_t c = 0; c < s; c++) t->at[c] = c * b, t->from[c] = t->new + c * b;
  for (size_t j = 0; j < r; j++) t->to[j] = t->deltas + j * b;
  struct contest c = {.enters = 1 << OURS | KERNELS, .stripes = 1, .repeats = repeats_for(s * b), .rounds = IN_CACHE_ROUNDS, .work = t};
  c.restore = restore, c.run = run, c.result = t->deltas, c.length = r * b;
  return c;
}
