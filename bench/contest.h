// One line of the table: the same work done by each contestant that takes part.
#ifndef CONTEST_H
#define CONTEST_H

#include "peers.h"

struct contest {
  char name[48];        // what stands at the start of the line
  unsigned enters;      // bit c: contestant c takes part
  size_t stripes;       // what one run does
  size_t repeats;       // runs in a measured stretch
  int rounds;
  void *work;           // what the functions below are given
  void (*restore)(void *work);                                    // before each stretch, outside the clock
  void (*run)(void *work, enum contestant who, size_t repeats);
  void (*finish)(void *work, enum contestant who);                // NULL, or outside the clock: results are compared before and after
  const uint8_t *result;
  size_t length;
  const uint8_t *expected;  // NULL: what ours leaves in result
};

enum { IN_CACHE_ROUNDS = 1000, STORE_ROUNDS = 40 };

extern bool quick;       // few rounds, to try the program out
int taken(int rounds);   // how many of so many rounds are made

// Contestants that are kernels alone.
enum { KERNELS = 1 << ISAL | 1 << ISAL_SSE | 1 << JERASURE | 1 << TABLE | 1 << XOR };

size_t repeats_for(size_t bytes);               // of a run that reads so many bytes: enough for the clock
void compare_results(const struct contest *c);  // exits with 1 if one differs from ours
void print_headings(void);
void time_and_print(const struct contest *c);
double now(void);  // nanoseconds
void expect(const char *call, uint64_t answer, uint64_t wanted);  // exits with 1 if they differ

#endif
