// Memory for the buffers of one case at a time. It is taken back as a whole, so that nothing is allocated while the clock runs and
// a case has the same addresses when it is compared and when it is timed.
#ifndef LEND_H
#define LEND_H

#include <stddef.h>
#include <stdint.h>

void *lend(size_t bytes);  // all zero
void take_all_back(void);
void fill(uint8_t *bytes, size_t length);  // the same bytes in each run of the program, for the same calls since take_all_back

#endif
