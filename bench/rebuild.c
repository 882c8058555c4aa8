// The call rebuild on one stripe whose first columns are lost. Ours finds the coefficients and verifies what present parity tells, each
// time. ISA-L, the C table and xor are handed the coefficients; 'solving' is ISA-L that inverts and makes its tables each time, as
// jerasure's decoding does. None of them verifies.
#include <isa-l/erasure_code.h>
#include <string.h>

#include "cases.h"
#include "lend.h"
#include "taldrimsu.h"

struct rebuild {
  size_t n, k, lost, b;
  struct matrix rows;    // of the code
  struct matrix solved;  // lost columns from the first k present blocks
  uint8_t code[MOST_BLOCKS * MOST_BLOCKS];  // n rows of k: what each block of the stripe is of the columns
  uint8_t *stripe, *truth, *losses;
  uint8_t *blocks[MOST_BLOCKS];  // of the stripe
};

static void restore(void *work) {
  struct rebuild *t = work;
  memset(t->stripe, 0, t->lost * t->b);
}

// Inverts the code's rows of the first k present blocks; the first rows of the inverse are the lost columns.
static int invert(struct rebuild *t, uint8_t *inverse) {
  uint8_t present[MOST_BLOCKS * MOST_BLOCKS];
  memcpy(present, t->code + t->lost * t->k, t->k * t->k);
  return gf_invert_matrix(present, inverse, t->k);
}

static void solve(struct rebuild *t) {
  uint8_t inverse[MOST_BLOCKS * MOST_BLOCKS];
  invert(t, inverse);
  ec_init_tables(t->k, t->lost, inverse, t->solved.split);
}

static void rebuild_once(struct rebuild *t, enum contestant who) {
  if (who == OURS) {
    uint64_t answer = taldrimsu_rebuild(t->n, t->k, t->b, t->stripe, t->n * t->b, t->losses, t->n);
    expect("rebuild", answer, TALDRIMSU_DONE + 256 * t->lost);
    return;
  }
  if (who == JERASURE) {
    jerasure_rebuild(&t->rows, t->lost, t->blocks, t->blocks + t->k);
    return;
  }
  if (who == ISAL_SOLVING) solve(t), who = ISAL;
  peers[who].multiply(&t->solved, t->blocks + t->lost, t->blocks);
}

static void run(void *work, enum contestant who, size_t repeats) {
  for (size_t i = 0; i < repeats; i++) rebuild_once(work, who);
}

static void make_matrices(struct rebuild *t) {
  uint8_t inverse[MOST_BLOCKS * MOST_BLOCKS];
  t->rows = rows_of(t->n - t->k, 0, t->k, t->b);
  for (size_t p = 0; p < t->n; p++)
    for (size_t c = 0; c < t->k; c++) t->code[p * t->k + c] = p < t->k ? p == c : coefficient(p - t->k, c);
  expect("the inversion", invert(t, inverse), 0);
  t->solved = (struct matrix){.rows = t->lost, .columns = t->k, .block = t->b};
  memcpy(t->solved.coefficients, inverse, t->lost * t->k);
  hand_over(&t->solved);
}

struct contest make_rebuild(size_t k, size_t r, size_t lost, size_t b) {
  struct rebuild *t = lend(sizeof *t);
  t->n = k + r, t->k = k, t->lost = lost, t->b = b;
  make_matrices(t);
  t->stripe = lend(t->n * b), t->truth = lend(t->n * b), t->losses = lend(t->n);
  memset(t->losses, 1, lost);
  fill(t->truth, k * b);
  for (size_t p = 0; p < t->n; p++) t->blocks[p] = t->truth + p * b;
  table(&t->rows, t->blocks, t->blocks + k);
  memcpy(t->stripe, t->truth, t->n * b);
  for (size_t p = 0; p < t->n; p++) t->blocks[p] = t->stripe + p * b;
  struct contest c = {.enters = 1 << OURS | 1 << ISAL_SOLVING | KERNELS, .stripes = 1, .repeats = repeats_for(k * b), .work = t};
  c.rounds = IN_CACHE_ROUNDS;
  c.restore = restore, c.run = run, c.result = t->stripe, c.length = t->n * b, c.expected = t->truth;
  return c;
}
