// How encode, drive and close grow with the number of stripes. The shape fixes how many a store has: it is one group. So there are 1, 10
// and 100 stores of one shape, one behind the other in memory, each with calls of its own. All are filled with the same bytes, and each
// must be left as a store by itself is. One store may stand in a cache and a hundred do not. So that they start alike, each store is put
// out of all caches before each of its calls.
#include <stdio.h>

#include "calls.h"
#include "contest.h"
#include "lend.h"
#include "tables.h"

enum { STEPS = 3, SHAPES = 3, MOST_STORES = 100, GROWING_ROUNDS = 10 };
enum { ONE, TEN, HUNDRED, ONE_CACHED, COLUMNS };

static const struct { const char *name; void (*call)(struct held *); } steps[STEPS] = {
    {"encode", call_encode}, {"growth", call_drive}, {"close", call_close}};
static const struct { size_t k, r, b; } shapes[SHAPES] = {{4, 2, 256}, {4, 2, 4096}, {10, 4, 256}};
static const size_t counts[COLUMNS] = {1, 10, MOST_STORES, 1};

static const char legend[] =
    "How the time grows with the number of stripes. A store is one group of stripes, and its shape fixes how many they are. So these are\n"
    "1, 10 and 100 stores of one shape, one behind the other in memory, each with calls of its own: all are encoded, then all driven,\n"
    "then all closed. Each store is put out of all caches before each of its calls, so that all of them come from memory. Cached: 1 store\n"
    "that is left where the caches have it. MB: of the 100 together. Nanoseconds that ours takes for a stripe as above, and the time with\n"
    "100 divided by the time with 1. Each store's best of";

struct stores {
  struct held left[STEPS + 1];  // one store, as each step finds it and the last one leaves it
  struct held all[MOST_STORES];
  double best[COLUMNS][STEPS][MOST_STORES];
};

// Makes one store go through all steps and lends room for the others.
static struct stores *make_stores(const struct store *z) {
  take_all_back();
  struct stores *t = lend(sizeof *t);
  t->left[0] = lend_begun(z);
  clear_rows(z, t->left[0].area);
  for (int i = 0; i < STEPS; i++) {
    t->left[i + 1] = lend_store(z);
    copy_store(&t->left[i + 1], &t->left[i]);
    steps[i].call(&t->left[i + 1]);
  }
  for (size_t i = 0; i < MOST_STORES; i++) t->all[i] = lend_store(z);
  return t;
}

// Compares all stores after a step with the one.
static void compare_all(const struct stores *t, int step) {
  for (size_t i = 0; i < MOST_STORES; i++)
    expect("the comparison of many stores with one", same_stores(&t->all[i], &t->left[step + 1]), true);
}

static void restore(struct stores *t, size_t count) {
  for (size_t i = 0; i < count; i++) copy_store(&t->all[i], &t->left[0]);
}

void compare_stores(void) {
  for (int shape = 0; shape < SHAPES; shape++) {
    struct store z = store_of(shapes[shape].k, shapes[shape].r, 1, shapes[shape].b);
    struct stores *t = make_stores(&z);
    restore(t, MOST_STORES);
    for (int i = 0; i < STEPS; i++) {
      for (size_t j = 0; j < MOST_STORES; j++) steps[i].call(&t->all[j]);
      compare_all(t, i);
    }
  }
}

// Puts so many bytes out of all caches.
static void flush(const void *start, size_t bytes) {
  for (size_t i = 0; i < bytes; i += 64) __builtin_ia32_clflush((const uint8_t *)start + i);
  __builtin_ia32_mfence();
}

// Times the step on each store of the column, one after the other, and keeps each one's best.
static void time_step(struct stores *t, int column, int step) {
  for (size_t i = 0; i < counts[column]; i++) {
    struct held *h = &t->all[i];
    if (column != ONE_CACHED) flush(h->area, h->z.bytes), flush(h->book, h->words * sizeof *h->book);
    double start = now();
    steps[step].call(h);
    double took = now() - start, *best = &t->best[column][step][i];
    if (*best == 0 || took < *best) *best = took;
  }
}

static void time_round(struct stores *t, int column) {
  restore(t, counts[column]);
  for (int i = 0; i < STEPS; i++) time_step(t, column, i);
}

// For one stripe, over all stores of the column.
static double mean(const struct stores *t, const struct store *z, int column, int step) {
  size_t stripes = steps[step].call == call_encode ? z->stripes : z->kept;
  double sum = 0;
  for (size_t i = 0; i < counts[column]; i++) sum += t->best[column][step][i];
  return sum / counts[column] / stripes;
}

static void print_line(const struct stores *t, const struct store *z, int step) {
  char code[16];
  double times[COLUMNS];
  snprintf(code, sizeof code, "(%zu,%zu)", z->k, z->r);
  printf("%-8s %-6s s 1    %4zu", steps[step].name, code, z->b);
  for (int c = 0; c < COLUMNS; c++) {
    times[c] = mean(t, z, c, step);
    printf(" %9.*f", times[c] < 100, times[c]);
  }
  printf(" %9.2f %9.0f\n", times[HUNDRED] / times[ONE], MOST_STORES * z->bytes / 1e6);
}

static void time_shape(const struct store *z) {
  struct stores *t = make_stores(z);
  for (int round = 0; round < taken(GROWING_ROUNDS); round++)
    for (int c = 0; c < COLUMNS; c++) time_round(t, c);
  printf("\n");
  for (int i = 0; i < STEPS; i++) print_line(t, z, i);
  fflush(stdout);
}

void time_stores(void) {
  printf("\n%s %d rounds counts.\n\n", legend, taken(GROWING_ROUNDS));
  printf("%-27s %9s %9s %9s %9s %9s %9s\n", "stores", "1", "10", "100", "cached", "100 / 1", "MB");
  for (int shape = 0; shape < SHAPES; shape++) {
    struct store z = store_of(shapes[shape].k, shapes[shape].r, 1, shapes[shape].b);
    time_shape(&z);
  }
}
