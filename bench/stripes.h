// The parity rows of one stripe of a store, made by a contestant's kernel: what the call encode does for all, and begin to verify.
#ifndef STRIPES_H
#define STRIPES_H

#include "peers.h"
#include "store.h"

// Row j of stripe g goes to offset to[j] of the area, which has so many bytes. Not for OURS: its stripes are made by the calls.
void rows_of_stripe(enum contestant who, struct matrix *m, const struct store *z, uint8_t *area, size_t length, size_t g,
                    const size_t to[MOST_ROWS]);

#endif
