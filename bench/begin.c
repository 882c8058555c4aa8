// The call begin on a whole store: it verifies all stripes, zeroes the new nodes and writes a fresh journal. The others make the rows of
// each stripe in a scratch, compare them with the store's and zero the new nodes; they have no journal. Xor is not among them, since the
// rows that it makes are not those of the store. That a damaged row is seen is asked outside the clock.
#include <string.h>

#include "calls.h"
#include "cases.h"
#include "lend.h"
#include "stripes.h"
#include "taldrimsu.h"

struct begin {
  struct held now;
  struct matrix m;
  size_t scratch;  // its offset from the start of the area, behind the store
};

static uint8_t *new_nodes(const struct held *h) { return h->area + cell_at(&h->z, h->z.n, 0); }

static size_t bytes_of_new_nodes(const struct store *z) { return z->s * z->kept * z->b; }

// The new nodes are not zero before.
static void restore(void *work) {
  struct begin *t = work;
  memset(new_nodes(&t->now), 0xFF, bytes_of_new_nodes(&t->now.z));
}

// Whether the rows of stripe g are what the contestant's kernel makes of its columns.
static bool stripe_holds(struct begin *t, enum contestant who, size_t g) {
  struct store *z = &t->now.z;
  uint8_t *area = t->now.area;
  size_t to[MOST_ROWS];
  for (size_t j = 0; j < z->r; j++) to[j] = t->scratch + j * z->b;
  rows_of_stripe(who, &t->m, z, area, t->scratch + z->r * z->b, g, to);
  for (size_t j = 0; j < z->r; j++)
    if (memcmp(area + to[j], area + row_at(z, g, j), z->b) != 0) return false;
  return true;
}

// The answer of the call begin, or of the same work in C.
static uint64_t begin_once(struct begin *t, enum contestant who) {
  struct store *z = &t->now.z;
  if (who == OURS) return taldrimsu_begin(z->n, z->k, z->s, z->b, t->now.area, z->bytes, t->now.book, t->now.words, GROWTH_NUMBER);
  for (size_t g = 0; g < z->stripes; g++)
    if (!stripe_holds(t, who, g)) return TALDRIMSU_INCONSISTENT;
  memset(new_nodes(&t->now), 0, bytes_of_new_nodes(z));
  return TALDRIMSU_DONE;
}

static void run(void *work, enum contestant who, size_t repeats) {
  for (size_t i = 0; i < repeats; i++) expect("begin", begin_once(work, who), TALDRIMSU_DONE);
}

// One bit of the last row of the last stripe is wrong for a moment.
static void finish(void *work, enum contestant who) {
  struct begin *t = work;
  struct store *z = &t->now.z;
  uint8_t *damaged = t->now.area + row_at(z, z->stripes - 1, z->r - 1) + z->b - 1;
  *damaged ^= 1;
  expect("begin on a damaged store", begin_once(t, who), TALDRIMSU_INCONSISTENT);
  *damaged ^= 1;
}

struct contest make_begin(size_t k, size_t r, size_t s, size_t b) {
  struct begin *t = lend(sizeof *t);
  struct store z = store_of(k, r, s, b);
  t->now = lend_begun(&z);
  t->m = rows_of(r, 0, k, b);
  t->scratch = (uint8_t *)lend(r * b) - t->now.area;
  struct contest c = {.stripes = z.stripes, .repeats = 1, .rounds = STORE_ROUNDS, .work = t};
  c.enters = 1 << OURS | 1 << BARE | (KERNELS & ~(1 << XOR));
  c.restore = restore, c.run = run, c.finish = finish, c.result = t->now.area, c.length = z.bytes;
  return c;
}
