// Who is compared, and the peers' kernels: each multiplies blocks by a matrix of coefficients.
#ifndef PEERS_H
#define PEERS_H

#include <stdbool.h>
#include <stddef.h>
#include <stdint.h>

enum { MOST_ROWS = 4, MOST_BLOCKS = 20 };  // of a stripe

enum contestant { OURS, BARE, ISAL, ISAL_SSE, ISAL_SOLVING, JERASURE, TABLE, XOR, CONTESTANTS };

struct matrix {
  size_t rows, columns, block;                     // blocks of so many bytes
  uint8_t coefficients[MOST_ROWS * MOST_BLOCKS];   // row after row
  uint8_t split[32 * MOST_ROWS * MOST_BLOCKS];     // the same as ISA-L takes them
  int wide[MOST_ROWS * MOST_BLOCKS];               // the same as jerasure takes them
  uint8_t multipliers[MOST_ROWS];                  // of the code's rows from column 0 on, as ours takes them
};

typedef void multiply(struct matrix *m, uint8_t **from, uint8_t **to);

struct peer {
  const char *heading;  // in the table
  multiply *multiply;   // NULL where each case has code of its own
};

extern const struct peer peers[CONTESTANTS];

bool installed(enum contestant who);
uint8_t coefficient(size_t row, size_t column);  // (row + 1)^column in the field
void hand_over(struct matrix *m);                // makes of the coefficients what each peer takes
struct matrix rows_of(size_t rows, size_t first, size_t columns, size_t block);  // the code's, from column `first` on

// plain.c
void fill_products(void);
multiply table;

// sums.c
extern bool xor_multiplies;  // while results are compared
multiply xor;

// jerasure.c. Its decoding inverts by itself; the first `lost` columns are lost.
extern const bool has_jerasure;
multiply jerasure;
void jerasure_rebuild(struct matrix *rows, size_t lost, uint8_t **columns, uint8_t **parity);

#endif
