// A store with all that its calls are lent, and the calls on it. Each of them must give the answer that a sound store gives.
#ifndef CALLS_H
#define CALLS_H

#include <stdbool.h>
#include <stdint.h>

#include "store.h"

struct held {
  struct store z;
  uint8_t *area;
  uint32_t *book;  // the journal
  size_t words;    // of the book
  uint8_t *space;  // drive's
};

enum { GROWTH_NUMBER = 1 };

struct held lend_store(const struct store *z);                 // all zero
struct held lend_begun(const struct store *z);                 // filled and encoded, and begin was called
void copy_store(struct held *to, const struct held *from);     // area and book
bool same_stores(const struct held *a, const struct held *b);  // area and book of one shape
size_t transfers_of(const struct store *z);                    // of a whole growth

void call_encode(struct held *h);
void call_begin(struct held *h);
void call_drive(struct held *h);                         // from what begin left to the last release
void call_drive_part(struct held *h, size_t transfers);  // that many, fewer than are left
void call_close(struct held *h);

#endif
