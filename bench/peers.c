#include "peers.h"

#include <isa-l/erasure_code.h>

#include "kernels.h"

// ISA-L's wide code leaves the upper halves of the vector registers in use, and SSE code that runs after it is slowed down. So they are
// cleared after each of its calls, by one instruction, inside its clock.
__attribute__((target("avx"))) static void clear_upper_halves(void) { __builtin_ia32_vzeroupper(); }

static void isal(struct matrix *m, uint8_t **from, uint8_t **to) {
  ec_encode_data(m->block, m->columns, m->rows, m->split, from, to);
  if (__builtin_cpu_supports("avx")) clear_upper_halves();
}

static void isal_sse(struct matrix *m, uint8_t **from, uint8_t **to) {
  ec_encode_data_sse(m->block, m->columns, m->rows, m->split, from, to);
}

const struct peer peers[CONTESTANTS] = {
    [OURS] = {"ours", 0},
    [BARE] = {"bare", 0},
    [ISAL] = {"ISA-L", isal},
    [ISAL_SSE] = {"ISA-L SSE", isal_sse},
    [ISAL_SOLVING] = {"solving", 0},
    [JERASURE] = {"jerasure", jerasure},
    [TABLE] = {"C table", table},
    [XOR] = {"xor", xor},
};

bool installed(enum contestant who) { return who != JERASURE || has_jerasure; }

uint8_t coefficient(size_t row, size_t column) {
  uint8_t power = 1;
  while (column--) power = gf_mul(power, row + 1);
  return power;
}

void hand_over(struct matrix *m) {
  ec_init_tables(m->columns, m->rows, m->coefficients, m->split);
  for (size_t i = 0; i < m->rows * m->columns; i++) m->wide[i] = m->coefficients[i];
}

struct matrix rows_of(size_t rows, size_t first, size_t columns, size_t block) {
  struct matrix m = {.rows = rows, .columns = columns, .block = block};
  for (size_t j = 0; j < rows; j++)
    for (size_t c = 0; c < columns; c++) m.coefficients[j * columns + c] = coefficient(j, first + c);
  if (first == 0)
    for (size_t j = 0; j < MOST_ROWS; j++) m.multipliers[j] = bench_multiplier(j, columns);
  hand_over(&m);
  return m;
}
