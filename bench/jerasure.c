// Jerasure over gf-complete, whose default field of 8 bits is ours. bench/run defines WITH_JERASURE if it is installed.
#include "peers.h"

#ifdef WITH_JERASURE
#include <jerasure.h>

const bool has_jerasure = true;

void jerasure(struct matrix *m, uint8_t **from, uint8_t **to) {
  jerasure_matrix_encode(m->columns, m->rows, 8, m->wide, (char **)from, (char **)to, m->block);
}

void jerasure_rebuild(struct matrix *rows, size_t lost, uint8_t **columns, uint8_t **parity) {
  int erasures[MOST_ROWS + 1];
  for (size_t c = 0; c < lost; c++) erasures[c] = c;
  erasures[lost] = -1;
  int row_0_is_ones = 1;
  jerasure_matrix_decode(rows->columns, rows->rows, 8, rows->wide, row_0_is_ones, erasures, (char **)columns, (char **)parity, rows->block);
}
#else
const bool has_jerasure = false;  // so the two below are never called

void jerasure(struct matrix *m, uint8_t **from, uint8_t **to) { (void)m, (void)from, (void)to; }

void jerasure_rebuild(struct matrix *rows, size_t lost, uint8_t **columns, uint8_t **parity) {
  (void)rows, (void)lost, (void)columns, (void)parity;
}
#endif
