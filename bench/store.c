#include "store.h"

#include <string.h>

struct store store_of(size_t k, size_t r, size_t s, size_t b) {
  struct store z = {.n = k + r, .k = k, .r = r, .s = s, .b = b};
  z.kept = z.n * k * (z.n + s);
  z.stripes = z.kept + z.n * s * (z.n + s);
  z.straight = z.n * k * (z.n - s * (r - 1));
  z.bytes = (z.n * z.stripes + s * z.kept) * b;
  return z;
}

size_t cell_at(const struct store *z, size_t node, size_t slot) {
  size_t before = node < z->n ? node * z->stripes : z->n * z->stripes + (node - z->n) * z->kept;
  return (before + slot) * z->b;
}

size_t row_at(const struct store *z, size_t g, size_t j) { return cell_at(z, (g + j) % z->n, g); }

size_t column_at(const struct store *z, size_t g, size_t d) { return cell_at(z, (g + z->r + d) % z->n, g); }

void columns_at(const struct store *z, size_t g, size_t *at) {
  size_t node = (g + z->r) % z->n;
  for (size_t d = 0; d < z->k; d++) {
    at[d] = cell_at(z, node, g);
    node = node + 1 == z->n ? 0 : node + 1;
  }
}

void clear_rows(const struct store *z, uint8_t *area) {
  for (size_t g = 0; g < z->stripes; g++)
    for (size_t j = 0; j < z->r; j++) memset(area + row_at(z, g, j), 0, z->b);
}

void clear_dissolved(const struct store *z, uint8_t *area) {
  for (size_t node = 0; node < z->n; node++) memset(area + cell_at(z, node, z->kept), 0, (z->stripes - z->kept) * z->b);
}
