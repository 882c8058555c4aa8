/* The whole life of a small store through the C interface: each function is called, and each code of the header is seen. A growth
 * of (3,1,1): r = 2, so a change, new blocks, straight and swapped stripes all occur. Prints the line that failed and ends with 1. */
#include "taldrimsu.h"

#include <stdio.h>
#include <stdlib.h>
#include <string.h>

enum { N = 3, K = 1, S = 1, B = 5, R = N - K, KEPT = N * K * (N + S), ALL = KEPT + N * S * (N + S) };
enum { CELLS = (N * ALL + S * KEPT) * B, BOOK = 4 + 2 * KEPT, MESSAGE = 16 + B, RECEIPT = 16, SPACE = 32 + B, TRANSFERS = S + R - 1 };

static uint8_t cells[CELLS], first[CELLS], message[MESSAGE], receipt[RECEIPT], space[SPACE];
static uint32_t book[BOOK];

static void expect(int holds, const char *what, int line) {
  if (holds) return;
  fprintf(stderr, "tests/capi.c:%d: %s\n", line, what);
  exit(1);
}
#define EXPECT(what) expect(what, #what, __LINE__)

static int answers(uint64_t answer, enum taldrimsu_code code, uint64_t value) {
  return taldrimsu_code_of(answer) == code && taldrimsu_value_of(answer) == value;
}

/* The data block of old stripe g, where the library says that it is. */
static const uint8_t *block(const uint8_t *in, const uint32_t *of, size_t g) {
  uint64_t place = taldrimsu_read(N, K, S, B, in, CELLS, of, BOOK, g, 0);
  EXPECT(taldrimsu_code_of(place) == TALDRIMSU_DONE);
  return in + taldrimsu_value_of(place);
}

static void begin(void) {
  for (size_t i = 0; i < CELLS; i++) cells[i] = (uint8_t)(i * 37 + i / 251);
  EXPECT(answers(taldrimsu_begin(N, K, S, B, cells, CELLS, book, BOOK, 7), TALDRIMSU_INCONSISTENT, 0));
  EXPECT(answers(taldrimsu_encode(N, K, S, B, cells, CELLS), TALDRIMSU_DONE, 0));
  EXPECT(answers(taldrimsu_begin(N, K, S, B, cells, CELLS, book, BOOK, 7), TALDRIMSU_DONE, 0));
  EXPECT(answers(taldrimsu_status(N, K, S, B, book, BOOK), TALDRIMSU_STATUS_OPEN, 0));
  memcpy(first, cells, CELLS);
}

/* Stripe 0 by single calls: its parity row 1 is on node 1 and its new block goes to node N. The change is delivered twice. */
static void grow_one_stripe(void) {
  const size_t receivers[TRANSFERS] = {1, N};
  EXPECT(answers(taldrimsu_send(N, K, S, B, cells, CELLS, book, BOOK, 0, 0, message, MESSAGE), TALDRIMSU_NOT_COMPUTED, 0));
  EXPECT(answers(taldrimsu_compute(N, K, S, B, cells, CELLS, book, BOOK, 0), TALDRIMSU_DONE, 0));
  EXPECT(answers(taldrimsu_compute(N, K, S, B, cells, CELLS, book, BOOK, 0), TALDRIMSU_ALREADY, 0));
  for (size_t e = 0; e < TRANSFERS; e++) {
    uint64_t answer;
    EXPECT(answers(taldrimsu_release(N, K, S, B, cells, CELLS, book, BOOK, 0), TALDRIMSU_UNFINISHED, 0));
    EXPECT(answers(taldrimsu_send(N, K, S, B, cells, CELLS, book, BOOK, 0, e, message, MESSAGE), TALDRIMSU_DONE, 0));
    EXPECT(answers(taldrimsu_deliver(N, K, S, B, cells, CELLS, book, BOOK, 2, message, MESSAGE, receipt, RECEIPT), TALDRIMSU_MALFORMED, 0));
    answer = taldrimsu_deliver(N, K, S, B, cells, CELLS, book, BOOK, receivers[e], message, MESSAGE, receipt, RECEIPT);
    EXPECT(answers(answer, TALDRIMSU_DONE, 0));
    answer = taldrimsu_deliver(N, K, S, B, cells, CELLS, book, BOOK, receivers[e], message, MESSAGE, receipt, RECEIPT);
    EXPECT(answers(answer, TALDRIMSU_ALREADY, 0));
    EXPECT(answers(taldrimsu_receipt(N, K, S, B, book, BOOK, 0, receipt, RECEIPT), TALDRIMSU_DONE, 0));
  }
  EXPECT(answers(taldrimsu_status(N, K, S, B, book, BOOK), TALDRIMSU_STATUS_OPEN, TRANSFERS));
  EXPECT(answers(taldrimsu_release(N, K, S, B, cells, CELLS, book, BOOK, 0), TALDRIMSU_DONE, 0));
  EXPECT(answers(taldrimsu_send(N, K, S, B, cells, CELLS, book, BOOK, 0, 0, message, MESSAGE), TALDRIMSU_RELEASED, 0));
}

/* A book with a wrong word, and a message of another growth: its third word is the growth's. */
static void spoil(void) {
  book[0] ^= 1;
  EXPECT(answers(taldrimsu_compute(N, K, S, B, cells, CELLS, book, BOOK, 1), TALDRIMSU_DAMAGED_BOOK, 0));
  book[0] ^= 1;
  message[8] ^= 1;
  uint64_t answer = taldrimsu_deliver(N, K, S, B, cells, CELLS, book, BOOK, N, message, MESSAGE, receipt, RECEIPT);
  EXPECT(answers(answer, TALDRIMSU_OTHER_GROWTH, 0));
}

static void drive_and_close(void) {
  const uint64_t rest = (KEPT - 1) * TRANSFERS;
  EXPECT(answers(taldrimsu_close(N, K, S, B, cells, CELLS, book, BOOK), TALDRIMSU_UNFINISHED, 0));
  EXPECT(answers(taldrimsu_drive(N, K, S, B, cells, CELLS, book, BOOK, 3, space, SPACE), TALDRIMSU_SPENT, 3));
  EXPECT(answers(taldrimsu_drive(N, K, S, B, cells, CELLS, book, BOOK, SIZE_MAX, space, SPACE), TALDRIMSU_FINISHED, rest - 3));
  EXPECT(answers(taldrimsu_close(N, K, S, B, cells, CELLS, book, BOOK), TALDRIMSU_DONE, 0));
  EXPECT(answers(taldrimsu_close(N, K, S, B, cells, CELLS, book, BOOK), TALDRIMSU_CLOSED, 0));
  EXPECT(answers(taldrimsu_status(N, K, S, B, book, BOOK), TALDRIMSU_STATUS_CLOSED, KEPT * TRANSFERS));
}

/* Every old block reads as it did when the growth began: in the old store, data block 0 of stripe g is on node (g + R) mod N, slot g. */
static void compare_blocks(void) {
  for (size_t g = 0; g < ALL; g++) EXPECT(!memcmp(block(cells, book, g), first + (((g + R) % N) * ALL + g) * B, B));
  EXPECT(answers(taldrimsu_read(N, K, S, B, cells, CELLS, book, BOOK, ALL, 0), TALDRIMSU_OUT_OF_RANGE, 0));
}

/* Document 01's E1 and E2: data 05 07 80 have rows 82, 31. Two lost blocks come back; three leave the data open; a wrong byte is seen. */
static void rebuild(void) {
  const uint8_t whole[5] = {0x05, 0x07, 0x80, 0x82, 0x31}, none[5] = {0}, two[5] = {1, 0, 0, 1, 0}, three[5] = {1, 1, 0, 1, 0};
  uint8_t stripe[5] = {0xAA, 0x07, 0x80, 0xAA, 0x31};
  EXPECT(answers(taldrimsu_rebuild(5, 3, 1, stripe, 5, three, 5), TALDRIMSU_AMBIGUOUS, 0));
  EXPECT(answers(taldrimsu_rebuild(5, 3, 1, stripe, 5, two, 5), TALDRIMSU_DONE, 2) && !memcmp(stripe, whole, 5));
  stripe[1] ^= 1;
  EXPECT(answers(taldrimsu_rebuild(5, 3, 1, stripe, 5, none, 5), TALDRIMSU_INCONSISTENT, 0));
  EXPECT(answers(taldrimsu_rebuild(21, 20, 1, stripe, 5, none, 5), TALDRIMSU_SHAPE, 0));
}

static void refuse_shapes(void) {
  EXPECT(answers(taldrimsu_encode(SIZE_MAX, SIZE_MAX, SIZE_MAX, SIZE_MAX, cells, CELLS), TALDRIMSU_SHAPE, 0));
  EXPECT(answers(taldrimsu_encode(4, 1, 3, 1, cells, CELLS), TALDRIMSU_TOO_MANY_NEW, 0));
  EXPECT(answers(taldrimsu_encode(N, K, S, B, cells, CELLS - 1), TALDRIMSU_LENGTH, 0));
}

int main(void) {
  begin();
  grow_one_stripe();
  spoil();
  drive_and_close();
  compare_blocks();
  rebuild();
  refuse_shapes();
  return 0;
}
