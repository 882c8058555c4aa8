// The call close on what drive left: it tests the whole journal, zeroes the old nodes' slots that are no longer used and sets the state.
// Bare: the zeroing alone.
#include <string.h>

#include "calls.h"
#include "cases.h"
#include "lend.h"

struct close {
  struct held now, grown;  // grown: as drive left it
};

// Close changes nothing but these slots and the book.
static void restore(void *work) {
  struct close *t = work;
  struct store *z = &t->now.z;
  for (size_t node = 0; node < z->n; node++) {
    size_t start = cell_at(z, node, z->kept);
    memcpy(t->now.area + start, t->grown.area + start, (z->stripes - z->kept) * z->b);
  }
  memcpy(t->now.book, t->grown.book, t->now.words * sizeof *t->now.book);
}

static void run(void *work, enum contestant who, size_t repeats) {
  struct close *t = work;
  (void)repeats;  // a growth is closed once
  if (who == OURS)
    call_close(&t->now);
  else
    clear_dissolved(&t->now.z, t->now.area);
}

struct contest make_close(size_t k, size_t r, size_t s, size_t b) {
  struct close *t = lend(sizeof *t);
  struct store z = store_of(k, r, s, b);
  t->now = lend_store(&z), t->grown = lend_begun(&z);
  call_drive(&t->grown);
  copy_store(&t->now, &t->grown);
  struct contest c = {.enters = 1 << OURS | 1 << BARE, .stripes = z.kept, .repeats = 1, .rounds = STORE_ROUNDS, .work = t};
  c.restore = restore, c.run = run, c.result = t->now.area, c.length = z.bytes;
  return c;
}
