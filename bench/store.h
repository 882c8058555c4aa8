// The layout of a store, written from document 01; none of the library's code is in it.
#ifndef STORE_H
#define STORE_H

#include <stddef.h>
#include <stdint.h>

struct store {
  size_t n, k, r, s, b;  // old nodes, columns, rows, new nodes, bytes of a block
  size_t kept, stripes;  // stripes 0 to kept - 1 are kept, the others are dissolved
  size_t straight;       // kept stripes 0 to straight - 1 are straight, the others are swapped
  size_t bytes;          // of the area
};

struct store store_of(size_t k, size_t r, size_t s, size_t b);
size_t cell_at(const struct store *z, size_t node, size_t slot);     // offset of a cell in the area
size_t row_at(const struct store *z, size_t g, size_t j);            // of parity row j of stripe g
size_t column_at(const struct store *z, size_t g, size_t d);         // of column d of stripe g
void columns_at(const struct store *z, size_t g, size_t *at);        // of all its columns, into `at`
void clear_rows(const struct store *z, uint8_t *area);               // zeroes all parity rows before a growth
void clear_dissolved(const struct store *z, uint8_t *area);          // zeroes the slots that are no longer used after a growth

#endif
