// The benchmark: all results are compared first, byte for byte, and then all cases are timed. With the environment variable BENCH_QUICK set
// it makes few rounds.
#include <stdio.h>
#include <stdlib.h>

#include "cases.h"
#include "lend.h"
#include "tables.h"

enum { UNUSED = 0, AS_MANY_AS_ROWS = 99 };

static const struct { size_t k, r; } codes[] = {{4, 2}, {6, 3}, {10, 4}, {12, 4}, {16, 4}};
enum { FOR_STORES = 3, FOR_ROWS = 5 };  // how many of the codes
static const size_t blocks[] = {256, 4096};

static const struct group {
  const char *what, *number;  // what is timed, and what its number x is
  make_contest *make;
  size_t x, codes;
} groups[] = {
    {"rows", "", make_rows, UNUSED, FOR_ROWS},
    {"encode", "", make_encode, UNUSED, FOR_STORES},
    {"delta", "s", make_delta, 1, FOR_STORES},
    {"delta", "s", make_delta, 2, FOR_STORES},
    {"rebuild", "lost", make_rebuild, 1, FOR_STORES},
    {"rebuild", "lost", make_rebuild, AS_MANY_AS_ROWS, FOR_STORES},
    {"begin", "s", make_begin, 1, FOR_STORES},
    {"growth", "s", make_growth, 1, FOR_STORES},
    {"growth", "s", make_growth, 2, FOR_STORES},
    {"close", "s", make_close, 1, FOR_STORES},
    {"read", "open", make_read_open, UNUSED, FOR_STORES},
    {"read", "closed", make_read_closed, UNUSED, FOR_STORES},
};

static const char legend[] =
    "rows     (k,r): the parity rows of one stripe in cache, the kernel alone\n"
    "encode   the call encode on a whole store\n"
    "delta    the deltas of all rows of one stripe from s new blocks, in cache, the kernel alone\n"
    "rebuild  the call rebuild on one stripe in cache that lost so many columns\n"
    "begin    the call begin, which verifies a whole store; the others make the rows in a scratch and compare, and have no journal\n"
    "growth   the call drive, a whole growth by s nodes; the others' growth has no protocol: no journal, messages or receipts\n"
    "close    the call close on what drive left; bare is the zeroing alone, without the test of the journal\n"
    "read     the call read, which tells where a block is, with half of the growth's transfers made (open) and after close (closed)\n"
    "bare     our own kernel in the others' encode, begin and growth\n"
    "solving  ISA-L that finds the coefficients inside the clock, as ours and jerasure do\n"
    "xor      the ceiling: each row is the sum of its columns, without products, which are put in only while results are compared\n\n"
    "The last number of a case is the block size in bytes. Then the nanoseconds that ours takes for a stripe (growth and close: a kept\n"
    "one; read: a call), and its time divided by each other's: above 1 the other is faster, below 1 ours is.\n";

static void name_case(struct contest *c, const struct group *group, size_t k, size_t r, size_t x, size_t b) {
  char code[16], number[16];
  snprintf(code, sizeof code, "(%zu,%zu)", k, r);
  if (group->x == UNUSED)
    snprintf(number, sizeof number, "%s", group->number);
  else
    snprintf(number, sizeof number, "%s %zu", group->number, x);
  snprintf(c->name, sizeof c->name, "%-8s %-6s %-6s %4zu", group->what, code, number, b);
}

static void for_each_case(const struct group *group, void (*take)(const struct contest *)) {
  for (size_t i = 0; i < group->codes; i++)
    for (size_t j = 0; j < sizeof blocks / sizeof *blocks; j++) {
      size_t k = codes[i].k, r = codes[i].r, x = group->x == AS_MANY_AS_ROWS ? r : group->x;
      take_all_back();
      struct contest c = group->make(k, r, x, blocks[j]);
      name_case(&c, group, k, r, x, blocks[j]);
      take(&c);
    }
}

static void print_introduction(void) {
  printf("All results agree byte for byte.%s\n\n%s", has_jerasure ? "" : " Jerasure is not installed.", legend);
  printf("Best of %d rounds in cache and %d for whole stores.\n", taken(IN_CACHE_ROUNDS), taken(STORE_ROUNDS));
  if (quick) printf("This is a quick run, to try the program out: with so few rounds its times say little.\n");
  printf("\n");
}

int main(void) {
  const struct group *end = groups + sizeof groups / sizeof *groups;
  quick = getenv("BENCH_QUICK") != NULL;
  fill_products();
  for (const struct group *g = groups; g < end; g++) for_each_case(g, compare_results);
  compare_stores();
  measure_stacks();
  print_introduction();
  print_headings();
  for (const struct group *g = groups; g < end; g++) {
    printf("\n");
    for_each_case(g, time_and_print);
  }
  time_stores();
  print_stacks();
  return 0;
}
