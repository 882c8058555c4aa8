// Makes ../stdout from Intel's ISA-L (Debian's libisal-dev), whose field is GF(256) modulo 0x11D too. To make it again:
//   gcc -o isal_tables isal_tables.c -lisal && ./isal_tables > ../stdout
#include <isa-l/erasure_code.h>
#include <stdio.h>

static void put(unsigned n, int at, int width) { printf("%u%c", n, (at + 1) % width ? ' ' : '\n'); }

static unsigned power(unsigned x, int c) {
  unsigned p = 1;
  while (c--) p = gf_mul(p, x);
  return p;
}

static unsigned logarithm(unsigned a) {
  unsigned i = 0;
  while (power(2, i) != a) i++;
  return i;
}

int main(void) {
  printf("powers of 2\n");
  for (int i = 0; i < 255; i++) put(power(2, i), i, 15);
  printf("logarithms\n");
  for (int i = 0; i < 255; i++) put(logarithm(i + 1), i, 15);
  printf("inverses\n");
  for (int i = 0; i < 255; i++) put(gf_inv(i + 1), i, 15);
  printf("coefficients\n");
  for (int i = 0; i < 76; i++) put(power(i / 19 + 1, i % 19), i, 19);
  return 0;
}
