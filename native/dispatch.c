/* The functions of taldrimsu.h, each handed on to one of the two levels of the archive: the same proved library, compiled for plain x86-64
 * (taldrimsu_plain_..) and with AVX2 (taldrimsu_avx2_..). No proof covers this file; tests/levels tests it. */
#include "taldrimsu.h"

#include <stdlib.h>
#include <string.h>

#ifndef __x86_64__
#error "the levels are for x86-64"
#endif

/* Written once, before main and so before there are threads. A call that comes even earlier takes the plain level, which every processor
 * has. */
static int wide;

/* Asks the processor, unless the environment says TALDRIMSU_LEVEL=plain. */
__attribute__((constructor)) static void choose(void) {
  const char *level = getenv("TALDRIMSU_LEVEL");
  __builtin_cpu_init();
  wide = __builtin_cpu_supports("avx2") && !(level && !strcmp(level, "plain"));
}

/* Parameters that several functions begin with, and the same as they are handed on. */
#define SHAPE size_t n, size_t k, size_t s, size_t b
#define STORE SHAPE, uint8_t *cells, size_t cells_length, uint32_t *book, size_t book_length
#define STORE_TO_READ SHAPE, const uint8_t *cells, size_t cells_length, const uint32_t *book, size_t book_length
#define THE_SHAPE n, k, s, b
#define THE_STORE THE_SHAPE, cells, cells_length, book, book_length

/* Declares the two levels of a function, and defines it: its parameters, and the same as it hands them on. */
#define LEVELS(name, parameters, handed) \
  extern __typeof__(taldrimsu_##name) taldrimsu_plain_##name, taldrimsu_avx2_##name; \
  uint64_t taldrimsu_##name parameters { return wide ? taldrimsu_avx2_##name handed : taldrimsu_plain_##name handed; }

LEVELS(encode, (SHAPE, uint8_t *cells, size_t cells_length), (THE_SHAPE, cells, cells_length))
LEVELS(begin, (STORE, size_t number), (THE_STORE, number))
LEVELS(compute, (STORE, size_t w), (THE_STORE, w))
LEVELS(send, (STORE_TO_READ, size_t w, size_t e, uint8_t *message, size_t message_length), (THE_STORE, w, e, message, message_length))
LEVELS(deliver,
       (STORE, size_t node, const uint8_t *message, size_t message_length, uint8_t *receipt, size_t receipt_length),
       (THE_STORE, node, message, message_length, receipt, receipt_length))
LEVELS(receipt,
       (SHAPE, uint32_t *book, size_t book_length, size_t node, const uint8_t *receipt, size_t receipt_length),
       (THE_SHAPE, book, book_length, node, receipt, receipt_length))
LEVELS(release, (STORE, size_t w), (THE_STORE, w))
LEVELS(close, (STORE), (THE_STORE))
LEVELS(status, (SHAPE, const uint32_t *book, size_t book_length), (THE_SHAPE, book, book_length))
LEVELS(read, (STORE_TO_READ, size_t g, size_t d), (THE_STORE, g, d))
LEVELS(drive, (STORE, size_t limit, uint8_t *space, size_t space_length), (THE_STORE, limit, space, space_length))
LEVELS(rebuild,
       (size_t n, size_t k, size_t b, uint8_t *stripe, size_t stripe_length, const uint8_t *losses, size_t losses_length),
       (n, k, b, stripe, stripe_length, losses, losses_length))
