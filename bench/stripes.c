#include "stripes.h"

#include "ours.h"

void rows_of_stripe(enum contestant who, struct matrix *m, const struct store *z, uint8_t *area, size_t length, size_t g,
                    const size_t to[MOST_ROWS]) {
  uint8_t *columns[MOST_BLOCKS], *rows[MOST_ROWS];
  size_t at[MOST_BLOCKS];
  columns_at(z, g, at);
  if (who == BARE) {
    our_rows(m, area, length, at, to);
    return;
  }
  for (size_t c = 0; c < z->k; c++) columns[c] = area + at[c];
  for (size_t j = 0; j < z->r; j++) rows[j] = area + to[j];
  peers[who].multiply(m, columns, rows);
}
