// The cases, each a contest made for a code of k columns and r rows. x is s, or how many columns are lost; rows,
// encode and read do not use it, and a store that is encoded or read has s = 1.
#ifndef CASES_H
#define CASES_H

#include "contest.h"

typedef struct contest make_contest(size_t k, size_t r, size_t x, size_t b);

make_contest make_rows;     // the kernel: the parity rows of one stripe
make_contest make_encode;   // the call encode on a whole store
make_contest make_delta;    // the kernel: the deltas of all rows of one stripe
make_contest make_rebuild;  // the call rebuild on one stripe
make_contest make_begin;    // the call begin on a whole store
make_contest make_growth;   // the call drive, a whole growth
make_contest make_close;    // the call close on a grown store
make_contest make_read_open, make_read_closed;  // the call read for each block of a store

#endif
