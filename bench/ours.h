// Our kernels below the calls, in the form that the cases run them in.
#ifndef OURS_H
#define OURS_H

#include "peers.h"

// All parity rows of m: row j over the blocks at the offsets in `at`, stored at to[j] in the same area.
void our_rows(const struct matrix *m, uint8_t *area, size_t length, const size_t at[MOST_BLOCKS], const size_t to[MOST_ROWS]);

// The deltas of all rows of m, whose columns are those from k on, of the blocks at the offsets in `at`. They are stored in order.
void our_deltas(const struct matrix *m, uint8_t *deltas, const uint8_t *area, size_t length, const size_t at[MOST_BLOCKS], size_t k);

#endif
