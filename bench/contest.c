#include "contest.h"

#include <alloca.h>
#include <stdio.h>
#include <stdlib.h>
#include <string.h>
#include <time.h>

#include "lend.h"

enum { STRETCH = 1 << 17 };  // bytes read in a measured stretch

bool quick;

int taken(int rounds) { return quick ? rounds / 20 + 2 : rounds; }

size_t repeats_for(size_t bytes) { return STRETCH / bytes + 1; }

static bool takes_part(const struct contest *c, enum contestant who) { return c->enters >> who & 1 && installed(who); }

static void run_once(const struct contest *c, enum contestant who, bool finished) {
  c->restore(c->work);
  c->run(c->work, who, 1);
  if (finished) c->finish(c->work, who);
}

static void compare(const struct contest *c, uint8_t *expected, bool finished) {
  run_once(c, OURS, finished);
  memcpy(expected, c->expected ? c->expected : c->result, c->length);
  for (enum contestant who = OURS; who < CONTESTANTS; who++) {
    if (!takes_part(c, who)) continue;
    run_once(c, who, finished);
    if (memcmp(c->result, expected, c->length) == 0) continue;
    printf("%s: the result of '%s' differs\n", c->name, peers[who].heading);
    exit(1);
  }
}

void compare_results(const struct contest *c) {
  uint8_t *expected = lend(c->length);
  xor_multiplies = true;
  compare(c, expected, false);
  if (c->finish) compare(c, expected, true);
  xor_multiplies = false;
}

double now(void) {
  struct timespec t;
  clock_gettime(CLOCK_MONOTONIC, &t);
  return t.tv_sec * 1e9 + t.tv_nsec;
}

// The stack starts elsewhere in each round: where it happens to stand to the buffers costs up to a fifth where blocks are small.
static double stretch(const struct contest *c, enum contestant who, int round) {
  volatile char *shift = alloca(round % 16 * 256 + 1);
  *shift = 0;
  c->restore(c->work);
  double start = now();
  c->run(c->work, who, c->repeats);
  return (now() - start) / c->repeats / c->stripes;
}

void print_headings(void) {
  printf("%-27s %9s", "", "ours, ns");
  for (enum contestant who = OURS + 1; who < CONTESTANTS; who++) printf(" %9s", peers[who].heading);
  printf("\n");
}

void time_and_print(const struct contest *c) {
  double best[CONTESTANTS];
  for (enum contestant who = OURS; who < CONTESTANTS; who++) best[who] = 1e300;
  for (int round = 0; round < taken(c->rounds); round++)
    for (enum contestant who = OURS; who < CONTESTANTS; who++) {
      if (!takes_part(c, who)) continue;
      double took = stretch(c, who, round);
      if (took < best[who]) best[who] = took;
    }
  printf("%-27s %9.*f", c->name, best[OURS] < 100, best[OURS]);
  for (enum contestant who = OURS + 1; who < CONTESTANTS; who++)
    if (takes_part(c, who))
      printf(" %9.2f", best[OURS] / best[who]);
    else
      printf(" %9s", "-");
  printf("\n");
  fflush(stdout);
}

void expect(const char *call, uint64_t answer, uint64_t wanted) {
  if (answer == wanted) return;
  printf("%s answered %llu and not %llu\n", call, (unsigned long long)answer, (unsigned long long)wanted);
  exit(1);
}
