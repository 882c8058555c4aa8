// A whole growth by the call drive, beside one in C that leaves the same bytes and has no protocol: no journal, messages or receipts. Its
// deltas are made by the peers' kernels; bare: by ours. What close does is outside the clock for all.
#include <string.h>

#include "calls.h"
#include "cases.h"
#include "lend.h"
#include "ours.h"

struct growth {
  struct store z;
  struct matrix m;
  struct held now, begun;  // begun: as begin left it
  uint8_t *area;           // of the store that grows
  size_t *sources;         // for each node, the slots of its data blocks in dissolved stripes, rising
  uint8_t *deltas;
};

static void restore(void *work) {
  struct growth *t = work;
  copy_store(&t->now, &t->begun);
}

static void make_deltas(struct growth *t, enum contestant who, uint8_t **new) {
  struct store *z = &t->z;
  uint8_t *to[MOST_ROWS];
  size_t at[MOST_BLOCKS];
  if (who != BARE) {
    for (size_t j = 0; j < z->r; j++) to[j] = t->deltas + j * z->b;
    peers[who].multiply(&t->m, new, to);
    return;
  }
  for (size_t i = 0; i < z->s; i++) at[i] = new[i] - t->area;
  our_deltas(&t->m, t->deltas, t->area, z->bytes, at, z->k);
}

static void add(uint8_t *restrict row, const uint8_t *restrict delta, size_t b) {
  for (size_t i = 0; i < b; i++) row[i] ^= delta[i];
}

// New block i of w goes to node n + i, but of a swapped stripe one stays on its node in the place of row 0, which goes to that one's.
static void move_blocks(struct growth *t, size_t w, uint8_t **new) {
  struct store *z = &t->z;
  uint8_t *row_0 = t->area + row_at(z, w, 0);
  size_t turn = w < z->straight ? z->s : (w - z->straight) % z->s;
  for (size_t i = 0; i < z->s; i++) {
    uint8_t *to = t->area + cell_at(z, z->n + i, w);
    memcpy(to, i == turn ? row_0 : new[i], z->b);
    if (i == turn) memcpy(row_0, new[i], z->b);
  }
}

static void grow_stripe(struct growth *t, enum contestant who, size_t w) {
  struct store *z = &t->z;
  size_t node = w % z->n, *slots = t->sources + node * (z->kept / z->n * z->s) + w / z->n * z->s;
  uint8_t *new[MOST_BLOCKS];
  for (size_t i = 0; i < z->s; i++) new[i] = t->area + cell_at(z, node, slots[i]);
  make_deltas(t, who, new);
  for (size_t j = 0; j < z->r; j++) add(t->area + row_at(z, w, j), t->deltas + j * z->b, z->b);
  move_blocks(t, w, new);
  for (size_t i = 0; i < z->s; i++) memset(new[i], 0, z->b);
}

static void run(void *work, enum contestant who, size_t repeats) {
  struct growth *t = work;
  (void)repeats;  // a growth starts from a restored area, so it is run once
  if (who == OURS)
    call_drive(&t->now);
  else
    for (size_t w = 0; w < t->z.kept; w++) grow_stripe(t, who, w);
}

static void finish(void *work, enum contestant who) {
  struct growth *t = work;
  if (who == OURS)
    call_close(&t->now);
  else
    clear_dissolved(&t->z, t->area);
}

static void list_sources(struct growth *t) {
  struct store *z = &t->z;
  size_t *next = t->sources;
  for (size_t node = 0; node < z->n; node++)
    for (size_t g = z->kept; g < z->stripes; g++)
      if ((node + z->n - g % z->n) % z->n >= z->r) *next++ = g;  // else the node has a parity row of g
}

struct contest make_growth(size_t k, size_t r, size_t s, size_t b) {
  struct growth *t = lend(sizeof *t);
  t->z = store_of(k, r, s, b);
  t->m = rows_of(r, k, s, b);
  t->now = lend_store(&t->z), t->begun = lend_begun(&t->z);
  t->area = t->now.area;
  t->sources = lend(t->z.kept * s * sizeof *t->sources);
  t->deltas = lend(r * b);
  list_sources(t);
  struct contest c = {.enters = 1 << OURS | 1 << BARE | KERNELS, .stripes = t->z.kept, .repeats = 1, .rounds = STORE_ROUNDS, .work = t};
  c.restore = restore, c.run = run, c.finish = finish, c.result = t->area, c.length = t->z.bytes;
  return c;
}
