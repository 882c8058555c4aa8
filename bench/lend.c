#include "lend.h"

#include <stdio.h>
#include <stdlib.h>
#include <string.h>

static const size_t ROOM = (size_t)1 << 30;  // a hundred stores need nine tenths of it; what is not touched costs nothing
static uint8_t *room;
static size_t lent;
static uint64_t seed;

void take_all_back(void) { lent = 0, seed = 0x9E3779B97F4A7C15; }

void *lend(size_t bytes) {
  if (!room) room = aligned_alloc(4096, ROOM);
  bytes = (bytes + 63) / 64 * 64;
  if (!room || bytes > ROOM - lent) {
    fprintf(stderr, "bench: not enough memory\n");
    exit(2);
  }
  uint8_t *start = room + lent;
  lent += bytes;
  return memset(start, 0, bytes);
}

static uint64_t next(void) {
  seed ^= seed << 13, seed ^= seed >> 7, seed ^= seed << 17;
  return seed;
}

void fill(uint8_t *bytes, size_t length) {
  for (size_t i = 0; i < length; i += 8) {
    uint64_t word = next();
    memcpy(bytes + i, &word, length - i < 8 ? length - i : 8);
  }
}
