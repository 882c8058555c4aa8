/* Taldrimsu: a proved library for small erasure-coded stores that grow by s nodes. The interface for C.
 *
 * Link libtaldrimsu.a, for x86-64: ./build makes it in target/lib, and `./build install PREFIX` puts it below PREFIX with this
 * header and a file for pkg-config. It needs the C library alone, takes no memory of its own but the stack, opens nothing, and
 * keeps nothing between calls but the level: everything is in the caller's buffers. Calls on different stores may run at once.
 *
 * THE LEVEL. The archive has the library twice, for plain x86-64 and with AVX2, compiled from the same proved source. It takes AVX2 if the
 * processor has it, which is asked once, before main. With TALDRIMSU_LEVEL=plain in the environment it takes the plain level; any other
 * value is as none. Where ./build could not make two levels it said so, and the archive has the plain one alone.
 *
 * WHAT IS PROVED. For all arguments and all contents of the buffers, each function leaves its answer and every byte of the buffers as the
 * definition of its call says; it reads and writes nothing beyond them, and returns. A refused call writes nothing. No proof covers
 * the choice of the level and the compilers; tests compare both levels.
 *
 * WHAT THE CALLER MUST SEE TO, since no proof can:
 *   - a buffer is a pointer and its length in elements (bytes, or 32-bit words of the book); the memory is there for that length,
 *     and a book is aligned as uint32_t is;
 *   - a pointer is not NULL, even where the length is 0;
 *   - a buffer that a function writes (no `const`) overlaps no other buffer of the same call, and nobody else touches it meanwhile;
 *   - between the calls of a growth nobody else writes the cells and the book. Two calls on the same store do not run at once.
 * Nothing else is asked: numbers, lengths and contents may be anything. But messages carry no checksum: a payload that was altered
 * on the way is taken as it is, and the layer that carries messages has to see to that.
 *
 * THE SHAPE: n old nodes, k data blocks in a stripe, s nodes to be added, blocks of b bytes. With r = n - k:
 *   1 <= k < n,  r <= 4,  s >= 1,  n + s <= 20,  1 <= b <= 4096,  s * (r - 1) <= n.
 *   P = n * k * (n + s) stripes are kept, n * s * (n + s) are dissolved; G is their sum. A stripe has s + r - 1 transfers.
 *
 * ONE GROUP. Cells and book are one group, with n * (n + s) * (k + s) * k data blocks: 0.49 MB for (4,2,1) with b = 4096, at most
 * 532 MB. A large store is many groups, each with its own cells, book and growth number. A grown group cannot grow again as it is:
 * its layout is not the first layout of another shape. Begin refuses it with 12 if parity shows it; with r = 1 parity does not, and
 * read would then find other blocks. Read its blocks into a new store.
 *
 * THE PLACES. The cell of node v, slot g starts at byte (g + v * G) * b of an old node, v < n, and (g + n * G + (v - n) * P) * b of
 * a new one. Old stripe g, 0 to G - 1, stands in slot g: parity row j on node (g + j) mod n, data block d on node (g + r + d) mod
 * n. So a store is filled, and then encoded. Stripe w of the grown store, 0 to P - 1, stands in slot w. Its columns 0 to k - 1 and
 * rows 1 to r - 1 stay where they were. With T = n * k * (n - s * (r - 1)):
 *   w < T (straight)    column k + t on node n + t; row 0 stays on node w mod n
 *   w >= T (swapped)    y = (w - T) mod s: row 0 on node n + y, column k + y on node w mod n, any other column k + t on node n + t
 * read tells where an old block is; docs/FORMAT.md says which old block each new column is, and explains the words that are used here.
 *
 * THE BUFFERS and their exact lengths (any other length is refused with 3):
 *   cells    bytes         (n * G + s * P) * b   every node's cells, nodes in order, slots in order; G slots on an old node, P on a new one
 *   book     32-bit words  4 + 2 * P             the journal of the growth; begin writes it, in the machine's own byte order
 *   message  bytes         16 + b
 *   receipt  bytes         16
 *   space    bytes         32 + b                drive's: the last message sent, and in the last 16 bytes its receipt
 *   stripe   bytes         n * b                 rebuild's: columns 0 to k - 1, then parity rows 0 to r - 1
 *   losses   bytes         n                     rebuild's: 1 lost, 0 present, in the order of the stripe
 *
 * THE ANSWER is one number, code + 256 * value; no two answers have the same number. Ask taldrimsu_code_of for the code: from read and
 * rebuild a number other than 0 may well be done.
 *   0        done      value: the number of lost blocks (rebuild), the block's offset in the cells in bytes (read), else 0
 *   1 to 13  refused, by the number alone (value 0): see TALDRIMSU_SHAPE and those below it. 14 to 31 are kept free
 *   32       already   the step was done before; nothing is changed but, in deliver, the receipt
 *   33       spent     (drive) it accepted as many transfers as its limit and a further one is left; value: how many it newly accepted
 *   34       finished  (drive) every stripe is released; value: how many it newly accepted
 *   41, 42   open, closed   (status) value: how many transfers are accepted
 */
#ifndef TALDRIMSU_H
#define TALDRIMSU_H

#include <stddef.h>
#include <stdint.h>

#ifdef __cplusplus
extern "C" {
#endif

enum taldrimsu_code {
  TALDRIMSU_DONE = 0,
  TALDRIMSU_SHAPE = 1,         /* the shape is outside its ranges */
  TALDRIMSU_TOO_MANY_NEW = 2,  /* s * (r - 1) > n: too many new nodes for so few old ones */
  TALDRIMSU_LENGTH = 3,        /* a buffer does not have its exact length */
  TALDRIMSU_DAMAGED_BOOK = 4,  /* the book is damaged or of another shape: header, touched word, deliver's count;
                                  in drive, close and status any word */
  TALDRIMSU_OUT_OF_RANGE = 5,  /* a growth number, node, stripe, column, transfer or loss byte is out of range */
  TALDRIMSU_NOT_COMPUTED = 6,  /* the stripe is not computed yet (send, receipt, release) */
  TALDRIMSU_RELEASED = 7,      /* the stripe is released (send) */
  TALDRIMSU_UNFINISHED = 8,    /* transfers are unreceipted (release), stripes are unreleased (close) */
  TALDRIMSU_MALFORMED = 9,     /* malformed, or for another node (a message, in deliver) or another sender (a receipt) */
  TALDRIMSU_OTHER_GROWTH = 10, /* the message or receipt is of another growth */
  TALDRIMSU_AMBIGUOUS = 11,    /* more than one set of data agrees with the present blocks (rebuild) */
  TALDRIMSU_INCONSISTENT = 12, /* no set of data does (rebuild); a stripe's parity is wrong (begin) */
  TALDRIMSU_CLOSED = 13,       /* the growth is closed */
  TALDRIMSU_ALREADY = 32,
  TALDRIMSU_SPENT = 33,
  TALDRIMSU_FINISHED = 34,
  TALDRIMSU_STATUS_OPEN = 41,
  TALDRIMSU_STATUS_CLOSED = 42
};

static inline enum taldrimsu_code taldrimsu_code_of(uint64_t answer) { return (enum taldrimsu_code)(answer % 256); }
static inline uint64_t taldrimsu_value_of(uint64_t answer) { return answer / 256; }

/* Writes all old parity cells from the data cells, of the G stripes of the old store, and nothing else.
 * Done, or refused 1 2 3. */
uint64_t taldrimsu_encode(size_t n, size_t k, size_t s, size_t b, uint8_t *cells, size_t cells_length);

/* Begins a growth: verifies the parity of all G stripes, zeroes the new nodes' cells, writes a fresh book. The book is not read.
 * `number` is the growth number, below 2^28, which messages and receipts carry: take another one for each growth.
 * Done, or refused 1 2 3 5 12. */
uint64_t taldrimsu_begin(size_t n, size_t k, size_t s, size_t b, uint8_t *cells, size_t cells_length, uint32_t *book, size_t book_length,
                         size_t number);

/* Adds the change of parity row 0 of kept stripe w (0 to P - 1), at the row's own node, and marks the stripe as computed.
 * Done, already, or refused 1 2 3 4 13 5. */
uint64_t taldrimsu_compute(size_t n, size_t k, size_t s, size_t b, uint8_t *cells, size_t cells_length, uint32_t *book, size_t book_length,
                           size_t w);

/* Writes the message of transfer e (0 to s + r - 2) of kept stripe w. Cells and book are only read.
 * Done, or refused 1 2 3 4 13 5 6 7. */
uint64_t taldrimsu_send(size_t n, size_t k, size_t s, size_t b, const uint8_t *cells, size_t cells_length, const uint32_t *book,
                        size_t book_length, size_t w, size_t e, uint8_t *message, size_t message_length);

/* A message arrives at a node (0 to n + s - 1): adds the change to, or stores the block in, its cell, marks the transfer, counts it
 * and writes the receipt. A repeat (already) writes the receipt alone. Done, already, or refused 1 2 3 4 13 5 9 10. */
uint64_t taldrimsu_deliver(size_t n, size_t k, size_t s, size_t b, uint8_t *cells, size_t cells_length, uint32_t *book, size_t book_length,
                           size_t node, const uint8_t *message, size_t message_length, uint8_t *receipt, size_t receipt_length);

/* A receipt arrives at the message's sender: marks the transfer as receipted. Done, already, or refused 1 2 3 4 13 5 9 10 6. */
uint64_t taldrimsu_receipt(size_t n, size_t k, size_t s, size_t b, uint32_t *book, size_t book_length, size_t node, const uint8_t *receipt,
                           size_t receipt_length);

/* Releases kept stripe w, whose transfers are all receipted: moves column k + y of a swapped stripe into slot w, zeroes the
 * dissolved cells that its new blocks came from, and marks the stripe as released. Done, already, or refused 1 2 3 4 13 5 6 8. */
uint64_t taldrimsu_release(size_t n, size_t k, size_t s, size_t b, uint8_t *cells, size_t cells_length, uint32_t *book, size_t book_length,
                           size_t w);

/* Closes a growth whose stripes are all released: zeroes all dissolved cells, sets the state. Done, or refused 1 2 3 4 13 8. */
uint64_t taldrimsu_close(size_t n, size_t k, size_t s, size_t b, uint8_t *cells, size_t cells_length, uint32_t *book, size_t book_length);

/* Tells the state of a growth and how many transfers are accepted, after a test of the whole book. 41 or 42, or refused 1 2 3 4. */
uint64_t taldrimsu_status(size_t n, size_t k, size_t s, size_t b, const uint32_t *book, size_t book_length);

/* Tells where data block d (0 to k - 1) of old stripe g (0 to G - 1) now is, from begin on, in the growth and after it: the offset
 * of its b bytes in the cells. It looks only at the length of the cells. Done, or refused 1 2 3 4 5. */
uint64_t taldrimsu_read(size_t n, size_t k, size_t s, size_t b, const uint8_t *cells, size_t cells_length, const uint32_t *book,
                        size_t book_length, size_t g, size_t d);

/* Drives a growth on: takes stripes by rising w, computes, sends, delivers and receipts each unreceipted transfer by rising e,
 * releases; newly accepts at most `limit` transfers. The space is left as it was if no message was sent. It does not close.
 * Spent or finished, or refused 1 2 3 4 13. */
uint64_t taldrimsu_drive(size_t n, size_t k, size_t s, size_t b, uint8_t *cells, size_t cells_length, uint32_t *book, size_t book_length,
                         size_t limit, uint8_t *space, size_t space_length);

/* Writes the lost blocks of one stripe of n <= 20 blocks (of a grown store: n + s blocks, k + s columns), if exactly one set of data agrees
 * with the present blocks. Takes no s, cells or book. Done with the number of lost blocks, or refused 1 3 5 11 12.
 *
 * IN THE MIDDLE OF A GROWTH. A kept stripe that is computed and not yet released is between two codes. Rebuild does not look at the
 * book: for such a stripe it can answer done with wrong bytes, with n and k as well as with n + s and k + s. Tried on (6,4,2), all
 * 192 stripes computed and nothing sent: after the loss of any two old nodes, rebuild with n and k answered done for every stripe,
 * and 128 had wrong data. The library has no call for such a stripe yet. Keep few stripes computed and unreleased, as drive does.
 * Rebuild a kept stripe that is not computed with n and k, and a released one with n + s and k + s. */
uint64_t taldrimsu_rebuild(size_t n, size_t k, size_t b, uint8_t *stripe, size_t stripe_length, const uint8_t *losses,
                           size_t losses_length);

#ifdef __cplusplus
}
#endif

#endif
