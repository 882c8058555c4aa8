// The call encode on a whole store that is to grow by one node, beside the peers' kernels called stripe by stripe over the same layout.
// Bare: our own kernel called in the peers' way, so without the call.
#include "calls.h"
#include "cases.h"
#include "lend.h"
#include "stripes.h"

struct encode {
  struct held now;
  struct matrix m;
};

static void restore(void *work) {
  struct encode *t = work;
  clear_rows(&t->now.z, t->now.area);
}

static void encode_once(struct encode *t, enum contestant who) {
  struct store *z = &t->now.z;
  if (who == OURS) {
    call_encode(&t->now);
    return;
  }
  for (size_t g = 0; g < z->stripes; g++) {
    size_t to[MOST_ROWS];
    for (size_t j = 0; j < z->r; j++) to[j] = row_at(z, g, j);
    rows_of_stripe(who, &t->m, z, t->now.area, z->bytes, g, to);
  }
}

static void run(void *work, enum contestant who, size_t repeats) {
  for (size_t i = 0; i < repeats; i++) encode_once(work, who);
}

struct contest make_encode(size_t k, size_t r, size_t x, size_t b) {
  (void)x;
  struct encode *t = lend(sizeof *t);
  struct store z = store_of(k, r, 1, b);
  t->now = lend_store(&z);
  t->m = rows_of(r, 0, k, b);
  fill(t->now.area, z.bytes);
  struct contest c = {.enters = 1 << OURS | 1 << BARE | KERNELS, .stripes = z.stripes, .repeats = 1, .rounds = STORE_ROUNDS, .work = t};
  c.restore = restore, c.run = run, c.result = t->now.area, c.length = z.bytes;
  return c;
}
