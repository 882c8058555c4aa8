// Our kernels below the calls, exported from crates/bench. A slice is a pointer and a length, the offsets are an array of 20.
#ifndef KERNELS_H
#define KERNELS_H

#include <stddef.h>
#include <stdint.h>

// the factor by which row j's coefficients over k columns go up, as bench_write_row takes it
uint8_t bench_multiplier(size_t j, size_t k);

// parity row j over the k columns at the offsets in `at`, stored at `to` in the same area; `to` and the offsets are multiples of b
void bench_write_row(uint8_t *area, size_t length, size_t to, const size_t at[20], size_t k, size_t j, uint8_t multiplier, size_t b);

// the delta of row j, where the s blocks of src become columns k to k + s - 1, stored at `to` in dst
void bench_write_delta(uint8_t *dst, size_t dst_length, size_t to, const uint8_t *src, size_t src_length, const size_t at[20], size_t k,
                       size_t s, size_t j, size_t b);

#endif
