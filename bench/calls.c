#include "calls.h"

#include <string.h>

#include "contest.h"
#include "lend.h"
#include "taldrimsu.h"

struct held lend_store(const struct store *z) {
  struct held h = {.z = *z, .words = 4 + 2 * z->kept};
  h.area = lend(z->bytes);
  h.book = lend(h.words * sizeof *h.book);
  h.space = lend(z->b + 32);
  return h;
}

struct held lend_begun(const struct store *z) {
  struct held h = lend_store(z);
  fill(h.area, z->bytes);
  call_encode(&h);
  call_begin(&h);
  return h;
}

void copy_store(struct held *to, const struct held *from) {
  memcpy(to->area, from->area, from->z.bytes);
  memcpy(to->book, from->book, from->words * sizeof *from->book);
}

bool same_stores(const struct held *a, const struct held *b) {
  return memcmp(a->area, b->area, a->z.bytes) == 0 && memcmp(a->book, b->book, a->words * sizeof *a->book) == 0;
}

size_t transfers_of(const struct store *z) { return z->kept * (z->s + z->r - 1); }

void call_encode(struct held *h) {
  struct store *z = &h->z;
  expect("encode", taldrimsu_encode(z->n, z->k, z->s, z->b, h->area, z->bytes), TALDRIMSU_DONE);
}

void call_begin(struct held *h) {
  struct store *z = &h->z;
  expect("begin", taldrimsu_begin(z->n, z->k, z->s, z->b, h->area, z->bytes, h->book, h->words, GROWTH_NUMBER), TALDRIMSU_DONE);
}

static void drive(struct held *h, size_t limit, uint64_t wanted) {
  struct store *z = &h->z;
  uint64_t answer = taldrimsu_drive(z->n, z->k, z->s, z->b, h->area, z->bytes, h->book, h->words, limit, h->space, z->b + 32);
  expect("drive", answer, wanted);
}

void call_drive(struct held *h) { drive(h, SIZE_MAX, TALDRIMSU_FINISHED + 256 * transfers_of(&h->z)); }

void call_drive_part(struct held *h, size_t transfers) { drive(h, transfers, TALDRIMSU_SPENT + 256 * transfers); }

void call_close(struct held *h) {
  struct store *z = &h->z;
  expect("close", taldrimsu_close(z->n, z->k, z->s, z->b, h->area, z->bytes, h->book, h->words), TALDRIMSU_DONE);
}
