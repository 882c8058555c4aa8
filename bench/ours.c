#include "ours.h"

#include "kernels.h"

void our_rows(const struct matrix *m, uint8_t *area, size_t length, const size_t at[MOST_BLOCKS], const size_t to[MOST_ROWS]) {
  for (size_t j = 0; j < m->rows; j++) bench_write_row(area, length, to[j], at, m->columns, j, m->multipliers[j], m->block);
}

void our_deltas(const struct matrix *m, uint8_t *deltas, const uint8_t *area, size_t length, const size_t at[MOST_BLOCKS], size_t k) {
  size_t b = m->block;
  for (size_t j = 0; j < m->rows; j++) bench_write_delta(deltas, m->rows * b, j * b, area, length, at, k, m->columns, j, b);
}
