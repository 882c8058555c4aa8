// How much stack each of the twelve calls takes: the memory that the library uses beside what it is lent. A growth is made call by call,
// for all stripes, transfers and blocks, and the deepest counts. It must leave what drive leaves.
#include <stdio.h>
#include <string.h>

#include "calls.h"
#include "contest.h"
#include "lend.h"
#include "stack.h"
#include "tables.h"
#include "taldrimsu.h"

struct trial {
  struct held h, driven;  // the growth is made call by call on h, and by drive on the other
  size_t per_stripe, message_bytes;
  uint8_t *messages, *receipts;  // of all transfers
  uint8_t *stripe, *losses;      // rebuild's
};

#define SHAPE(h) (h)->z.n, (h)->z.k, (h)->z.s, (h)->z.b
#define AREA(h) (h)->area, (h)->z.bytes
#define BOOK(h) (h)->book, (h)->words
// One call: where the stack stands before it, and its answer.
#define CALL(name, wanted, ...) \
  do { \
    NOTE_STACK_POINTER(); \
    uint64_t answer = taldrimsu_##name(__VA_ARGS__); \
    expect(#name, answer, wanted); \
  } while (0)

enum { RECEIPT_BYTES = 16 };

static uint8_t *message_of(const struct trial *t, size_t w, size_t e) { return t->messages + (w * t->per_stripe + e) * t->message_bytes; }

static uint8_t *receipt_of(const struct trial *t, size_t w, size_t e) { return t->receipts + (w * t->per_stripe + e) * RECEIPT_BYTES; }

static size_t sender(const struct store *z, size_t w) { return w % z->n; }

static size_t receiver(const struct store *z, size_t w, size_t e) { return e < z->r - 1 ? (w + e + 1) % z->n : z->n + e - (z->r - 1); }

static void run_encode(void *work) {
  struct held *h = &((struct trial *)work)->h;
  CALL(encode, TALDRIMSU_DONE, SHAPE(h), AREA(h));
}

static void run_begin(void *work) {
  struct held *h = &((struct trial *)work)->h;
  CALL(begin, TALDRIMSU_DONE, SHAPE(h), AREA(h), BOOK(h), GROWTH_NUMBER);
}

static void run_compute(void *work) {
  struct held *h = &((struct trial *)work)->h;
  for (size_t w = 0; w < h->z.kept; w++) CALL(compute, TALDRIMSU_DONE, SHAPE(h), AREA(h), BOOK(h), w);
}

static void run_send(void *work) {
  struct trial *t = work;
  struct held *h = &t->h;
  for (size_t w = 0; w < h->z.kept; w++)
    for (size_t e = 0; e < t->per_stripe; e++)
      CALL(send, TALDRIMSU_DONE, SHAPE(h), AREA(h), BOOK(h), w, e, message_of(t, w, e), t->message_bytes);
}

static void run_deliver(void *work) {
  struct trial *t = work;
  struct held *h = &t->h;
  for (size_t w = 0; w < h->z.kept; w++)
    for (size_t e = 0; e < t->per_stripe; e++)
      CALL(deliver, TALDRIMSU_DONE, SHAPE(h), AREA(h), BOOK(h), receiver(&h->z, w, e), message_of(t, w, e), t->message_bytes,
           receipt_of(t, w, e), RECEIPT_BYTES);
}

static void run_receipt(void *work) {
  struct trial *t = work;
  struct held *h = &t->h;
  for (size_t w = 0; w < h->z.kept; w++)
    for (size_t e = 0; e < t->per_stripe; e++)
      CALL(receipt, TALDRIMSU_DONE, SHAPE(h), BOOK(h), sender(&h->z, w), receipt_of(t, w, e), RECEIPT_BYTES);
}

static void run_release(void *work) {
  struct held *h = &((struct trial *)work)->h;
  for (size_t w = 0; w < h->z.kept; w++) CALL(release, TALDRIMSU_DONE, SHAPE(h), AREA(h), BOOK(h), w);
}

static void run_drive(void *work) {
  struct held *h = &((struct trial *)work)->driven;
  uint64_t finished = TALDRIMSU_FINISHED + 256 * transfers_of(&h->z);
  CALL(drive, finished, SHAPE(h), AREA(h), BOOK(h), SIZE_MAX, h->space, h->z.b + 32);
}

static void run_status(void *work) {
  struct held *h = &((struct trial *)work)->h;
  CALL(status, TALDRIMSU_STATUS_OPEN + 256 * transfers_of(&h->z), SHAPE(h), BOOK(h));
}

static void run_read(void *work) {
  struct held *h = &((struct trial *)work)->h;
  for (size_t g = 0; g < h->z.stripes; g++)
    for (size_t d = 0; d < h->z.k; d++) {
      NOTE_STACK_POINTER();
      uint64_t answer = taldrimsu_read(SHAPE(h), AREA(h), BOOK(h), g, d);
      expect("read", taldrimsu_code_of(answer), TALDRIMSU_DONE);
    }
}

static void run_close(void *work) {
  struct held *h = &((struct trial *)work)->h;
  CALL(close, TALDRIMSU_DONE, SHAPE(h), AREA(h), BOOK(h));
}

static void run_rebuild(void *work) {
  struct trial *t = work;
  size_t n = t->h.z.n, k = t->h.z.k, b = t->h.z.b;
  for (size_t lost = 0; lost <= n - k; lost++) {
    memset(t->losses, 1, lost);
    CALL(rebuild, TALDRIMSU_DONE + 256 * lost, n, k, b, t->stripe, n * b, t->losses, n);
  }
}

enum { CALLS = 12, SIZES = 2 };
static const struct { const char *name; void (*run)(void *); } jobs[CALLS] = {
    {"encode", run_encode},   {"begin", run_begin},     {"compute", run_compute}, {"send", run_send},
    {"deliver", run_deliver}, {"receipt", run_receipt}, {"release", run_release}, {"drive", run_drive},
    {"status", run_status},   {"read", run_read},       {"close", run_close},     {"rebuild", run_rebuild},
};
static const size_t sizes[SIZES] = {256, 4096};
static size_t depths[SIZES][CALLS];

// A stripe with its rows.
static uint8_t *lend_stripe(const struct store *z) {
  struct matrix rows = rows_of(z->r, 0, z->k, z->b);
  uint8_t *stripe = lend(z->n * z->b), *blocks[MOST_BLOCKS];
  fill(stripe, z->k * z->b);
  for (size_t p = 0; p < z->n; p++) blocks[p] = stripe + p * z->b;
  table(&rows, blocks, blocks + z->k);
  return stripe;
}

// Two stores with the same columns: one that is still to be encoded, and one that begin was called on.
static struct trial make_trial(const struct store *z) {
  take_all_back();
  struct trial t = {.per_stripe = z->s + z->r - 1, .message_bytes = z->b + 16};
  t.driven = lend_begun(z), t.h = lend_store(z);
  copy_store(&t.h, &t.driven);
  clear_rows(z, t.h.area);
  memset(t.h.book, 0, t.h.words * sizeof *t.h.book);
  t.messages = lend(transfers_of(z) * t.message_bytes), t.receipts = lend(transfers_of(z) * RECEIPT_BYTES);
  t.stripe = lend_stripe(z), t.losses = lend(z->n);
  return t;
}

void measure_stacks(void) {
  for (int i = 0; i < SIZES; i++) {
    struct store z = store_of(10, 4, 1, sizes[i]);
    struct trial t = make_trial(&z);
    for (int c = 0; c < CALLS; c++) depths[i][c] = stack_depth(jobs[c].run, &t);
    call_close(&t.driven);
    expect("the comparison of drive with the calls one by one", same_stores(&t.h, &t.driven), true);
  }
}

static const char legend[] =
    "The stack that each call takes, in bytes: all that it uses beside the memory that it is lent. From the caller's stack pointer down\n"
    "to the lowest word that is written, with the arguments that are handed over on the stack. The deepest of a whole growth of (10,4),\n"
    "s 1; of rebuild with 0 to 4 columns lost.";

void print_stacks(void) {
  printf("\n%s\n\n%-27s", legend, "block size");
  for (int i = 0; i < SIZES; i++) printf(" %9zu", sizes[i]);
  printf("\n\n");
  for (int c = 0; c < CALLS; c++) {
    printf("%-27s", jobs[c].name);
    for (int i = 0; i < SIZES; i++) printf(" %9zu", depths[i][c]);
    printf("\n");
  }
}
