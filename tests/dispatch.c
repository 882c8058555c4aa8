/* The dispatcher of the archive over levels that are made up here: each function tells its level, its own name and every argument, so the
 * answer shows whether a call was handed on as it should be. With the argument plain that level is expected, with none the best that the
 * processor has. Prints what differs, and ends with 1. */
#include "taldrimsu.h"

#include <stdio.h>
#include <string.h>

/* A number for a level, a function and its arguments in their order. */
static uint64_t told(const char *level, const char *name, const uint64_t *arguments, size_t count) {
  uint64_t sum = 14695981039346656037u;
  for (; *level; level++) sum = (sum ^ (uint8_t)*level) * 1099511628211u;
  for (; *name; name++) sum = (sum ^ (uint8_t)*name) * 1099511628211u;
  for (size_t i = 0; i < count; i++) sum = (sum ^ arguments[i]) * 1099511628211u;
  return sum;
}

#define TELL(level, name, ...) \
  const uint64_t arguments[] = {__VA_ARGS__}; \
  return told(#level, #name, arguments, sizeof arguments / sizeof *arguments)
#define P(pointer) (uint64_t)(uintptr_t)(pointer)
#define SHAPE size_t n, size_t k, size_t s, size_t b
#define CELLS uint8_t *c, size_t cl
#define BOOK uint32_t *j, size_t jl
#define STORE n, k, s, b, P(c), cl, P(j), jl

/* The twelve functions of a level. */
#define LEVEL(l) \
  uint64_t taldrimsu_##l##_encode(SHAPE, CELLS) { TELL(l, encode, n, k, s, b, P(c), cl); } \
  uint64_t taldrimsu_##l##_begin(SHAPE, CELLS, BOOK, size_t x) { TELL(l, begin, STORE, x); } \
  uint64_t taldrimsu_##l##_compute(SHAPE, CELLS, BOOK, size_t x) { TELL(l, compute, STORE, x); } \
  uint64_t taldrimsu_##l##_send(SHAPE, const CELLS, const BOOK, size_t x, size_t y, uint8_t *m, size_t ml) { \
    TELL(l, send, STORE, x, y, P(m), ml); \
  } \
  uint64_t taldrimsu_##l##_deliver(SHAPE, CELLS, BOOK, size_t x, const uint8_t *m, size_t ml, uint8_t *r, size_t rl) { \
    TELL(l, deliver, STORE, x, P(m), ml, P(r), rl); \
  } \
  uint64_t taldrimsu_##l##_receipt(SHAPE, BOOK, size_t x, const uint8_t *r, size_t rl) { \
    TELL(l, receipt, n, k, s, b, P(j), jl, x, P(r), rl); \
  } \
  uint64_t taldrimsu_##l##_release(SHAPE, CELLS, BOOK, size_t x) { TELL(l, release, STORE, x); } \
  uint64_t taldrimsu_##l##_close(SHAPE, CELLS, BOOK) { TELL(l, close, STORE); } \
  uint64_t taldrimsu_##l##_status(SHAPE, const BOOK) { TELL(l, status, n, k, s, b, P(j), jl); } \
  uint64_t taldrimsu_##l##_read(SHAPE, const CELLS, const BOOK, size_t x, size_t y) { TELL(l, read, STORE, x, y); } \
  uint64_t taldrimsu_##l##_drive(SHAPE, CELLS, BOOK, size_t x, uint8_t *m, size_t ml) { TELL(l, drive, STORE, x, P(m), ml); } \
  uint64_t taldrimsu_##l##_rebuild(size_t n, size_t k, size_t b, uint8_t *m, size_t ml, const uint8_t *r, size_t rl) { \
    TELL(l, rebuild, n, k, b, P(m), ml, P(r), rl); \
  }
LEVEL(plain)
LEVEL(avx2)

static uint8_t bytes[4];
static uint32_t words[1];
static int wide, wrong;

static void check(const char *name, uint64_t answer, uint64_t expected) {
  if (answer == expected) return;
  fprintf(stderr, "tests/dispatch.c: %s is not handed on to %s as it was called\n", name, wide ? "avx2" : "plain");
  wrong = 1;
}
#define CHECK(name, ...) \
  check(#name, taldrimsu_##name(__VA_ARGS__), wide ? taldrimsu_avx2_##name(__VA_ARGS__) : taldrimsu_plain_##name(__VA_ARGS__))
#define OF_STORE 1, 2, 3, 4, bytes, 5, words, 6

/* A call before the dispatcher has asked the processor. */
static uint64_t early;
__attribute__((constructor(101))) static void call_early(void) { early = taldrimsu_status(1, 2, 3, 4, words, 5); }

int main(int count, char **arguments) {
  const char *level = count == 2 ? arguments[1] : "";
  __builtin_cpu_init();
  wide = strcmp(level, "plain") && __builtin_cpu_supports("avx2");
  check("a call before main", early, taldrimsu_plain_status(1, 2, 3, 4, words, 5));
  CHECK(encode, 1, 2, 3, 4, bytes, 5);
  CHECK(begin, OF_STORE, 7);
  CHECK(compute, OF_STORE, 7);
  CHECK(send, OF_STORE, 7, 8, bytes + 1, 9);
  CHECK(deliver, OF_STORE, 7, bytes + 1, 8, bytes + 2, 9);
  CHECK(receipt, 1, 2, 3, 4, words, 5, 6, bytes, 7);
  CHECK(release, OF_STORE, 7);
  CHECK(close, OF_STORE);
  CHECK(status, 1, 2, 3, 4, words, 5);
  CHECK(read, OF_STORE, 7, 8);
  CHECK(drive, OF_STORE, 7, bytes + 1, 8);
  CHECK(rebuild, 1, 2, 3, bytes, 4, bytes + 1, 5);
  return wrong;
}
