// The ceiling of any kernel that makes a row at a time: what it would take if products were free. A row is the sum of the columns as they
// are, eight vectors of it at a time in registers. While results are compared, a row with other coefficients than 1 is made with products,
// so that all bytes must be ours.
#include <string.h>

#include "peers.h"

bool xor_multiplies;

#ifdef __AVX2__
typedef uint8_t vector __attribute__((vector_size(32)));
#else
typedef uint8_t vector __attribute__((vector_size(16)));
#endif
enum { VECTORS = 8 };  // of a row in registers; block sizes are multiples of them

static void sum_columns(uint8_t *restrict row, uint8_t **from, size_t columns, size_t block) {
  for (size_t x = 0; x < block; x += VECTORS * sizeof(vector)) {
    vector sum[VECTORS] = {0}, part;
    for (size_t c = 0; c < columns; c++)
#pragma GCC unroll 8
      for (size_t i = 0; i < VECTORS; i++) {
        memcpy(&part, from[c] + x + i * sizeof part, sizeof part);
        sum[i] ^= part;
      }
#pragma GCC unroll 8
    for (size_t i = 0; i < VECTORS; i++) memcpy(row + x + i * sizeof part, &sum[i], sizeof part);
  }
}

static bool is_plain_sum(const struct matrix *m, size_t row) {
  for (size_t c = 0; c < m->columns; c++)
    if (m->coefficients[row * m->columns + c] != 1) return false;
  return true;
}

void xor(struct matrix *m, uint8_t **from, uint8_t **to) {
  if (xor_multiplies) table(m, from, to);
  for (size_t j = 0; j < m->rows; j++)
    if (!xor_multiplies || is_plain_sum(m, j)) sum_columns(to[j], from, m->columns, m->block);
}
