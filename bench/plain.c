// Plain C: products by a table.
#include "peers.h"

static uint8_t product[256][256];  // a row for each coefficient: its products with all bytes

void fill_products(void) {
  for (int a = 0; a < 256; a++)
    for (int b = 0; b < 256; b++) {
      int sum = 0, shifted = a;
      for (int bit = b; bit; bit >>= 1, shifted = shifted << 1 ^ (shifted >> 7) * 0x11D)
        if (bit & 1) sum ^= shifted;
      product[a][b] = sum;
    }
}

void table(struct matrix *m, uint8_t **from, uint8_t **to) {
  for (size_t j = 0; j < m->rows; j++)
    for (size_t c = 0; c < m->columns; c++) {
      const uint8_t *times = product[m->coefficients[j * m->columns + c]], *restrict source = from[c];
      uint8_t *restrict sum = to[j];
      if (c == 0)
        for (size_t i = 0; i < m->block; i++) sum[i] = times[source[i]];
      else
        for (size_t i = 0; i < m->block; i++) sum[i] ^= times[source[i]];
    }
}
