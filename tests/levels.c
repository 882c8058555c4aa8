/* The two levels of the archive side by side, from the same input: random stores, mostly right arguments, now and then something spoilt.
 * After each call the answers and every byte that was lent must be equal, and so must the bytes around each buffer. At the end every
 * function must have given exactly the codes that the header lists for it. Prints the first difference, and ends with 1. The argument is
 * a seed. */
#include "taldrimsu.h"

#include <stdio.h>
#include <stdlib.h>
#include <string.h>

enum call { ENCODE, BEGIN, COMPUTE, SEND, DELIVER, RECEIPT, RELEASE, CLOSE, STATUS, READ, DRIVE, REBUILD, CALLS };
static const char *const names[CALLS] = {"encode",  "begin", "compute", "send", "deliver", "receipt",
                                         "release", "close", "status",  "read", "drive",   "rebuild"};

/* The functions of one level. */
struct level {
#define POINTER(name) __typeof__(taldrimsu_##name) *name;
#define EACH(DO) \
  DO(encode) DO(begin) DO(compute) DO(send) DO(deliver) DO(receipt) DO(release) DO(close) DO(status) DO(read) DO(drive) DO(rebuild)
  EACH(POINTER)
};
#define DECLARED(name) extern __typeof__(taldrimsu_##name) taldrimsu_plain_##name, taldrimsu_avx2_##name;
#define PLAIN(name) taldrimsu_plain_##name,
#define AVX2(name) taldrimsu_avx2_##name,
EACH(DECLARED)
static const struct level levels[2] = {{EACH(PLAIN)}, {EACH(AVX2)}};

/* What is lent: for each level its own copy, at any alignment, with bytes around it that no call may write. Lengths are in elements. */
enum buffer { CELLS, BOOK, MESSAGE, SIGNED, SPACE, STRIPE, LOSSES, BUFFERS };
static const char *const buffer_names[BUFFERS] = {"cells", "book", "message", "receipt", "space", "stripe", "losses"};
enum { MARGIN = 64, SHIFTS = 32 };
static uint8_t *taken[2][BUFFERS], *memory[2][BUFFERS]; /* what malloc gave, and where the first margin starts in it */
static size_t lengths[BUFFERS], sizes[BUFFERS]; /* elements that a call is told of, and bytes that there are without the margins */

struct shape {
  size_t n, k, s, b;
};

/* How often each call gave each code. */
static unsigned long seen[CALLS][64];
static unsigned long seed, calls;

/* splitmix64 */
static uint64_t state;
static uint64_t any(void) {
  uint64_t z = state += 0x9E3779B97F4A7C15u;
  z = (z ^ (z >> 30)) * 0xBF58476D1CE4E5B9u;
  z = (z ^ (z >> 27)) * 0x94D049BB133111EBu;
  return z ^ (z >> 31);
}
static size_t below(size_t bound) { return (size_t)(any() % bound); }
static int one_in(size_t times) { return below(times) == 0; }
/* Mostly a number below the bound, sometimes the bound or one far above it. */
static size_t near(size_t bound) {
  const size_t above[] = {bound, bound + 1, (size_t)1 << 28, SIZE_MAX};
  return one_in(12) ? above[below(4)] : below(bound);
}

static uint8_t *bytes_of(int level, enum buffer of) { return memory[level][of] + MARGIN; }
static uint32_t *book_of(int level) { return (uint32_t *)(void *)bytes_of(level, BOOK); }

/* Makes a buffer of this many elements for both levels, filled with the same random bytes. */
static void lend(enum buffer of, size_t length, size_t element) {
  lengths[of] = length;
  sizes[of] = length * element;
  for (int level = 0; level < 2; level++) {
    free(taken[level][of]);
    taken[level][of] = malloc(sizes[of] + 2 * MARGIN + SHIFTS);
    if (!taken[level][of]) exit(2);
    memory[level][of] = taken[level][of] + below(SHIFTS) / element * element;
  }
  for (size_t i = 0; i < sizes[of] + 2 * MARGIN; i++) memory[0][of][i] = memory[1][of][i] = (uint8_t)any();
}

/* One call at one level. What x and y are depends on the call. */
static uint64_t at_level(int level, enum call call, struct shape z, size_t x, size_t y) {
  const struct level *const of = &levels[level];
  uint8_t *const cells = bytes_of(level, CELLS), *const message = bytes_of(level, MESSAGE), *const receipt = bytes_of(level, SIGNED);
  uint32_t *const book = book_of(level);
#define STORE z.n, z.k, z.s, z.b, cells, lengths[CELLS], book, lengths[BOOK]
  switch (call) {
    case ENCODE: return of->encode(z.n, z.k, z.s, z.b, cells, lengths[CELLS]);
    case BEGIN: return of->begin(STORE, x);
    case COMPUTE: return of->compute(STORE, x);
    case SEND: return of->send(STORE, x, y, message, lengths[MESSAGE]);
    case DELIVER: return of->deliver(STORE, x, message, lengths[MESSAGE], receipt, lengths[SIGNED]);
    case RECEIPT: return of->receipt(z.n, z.k, z.s, z.b, book, lengths[BOOK], x, receipt, lengths[SIGNED]);
    case RELEASE: return of->release(STORE, x);
    case CLOSE: return of->close(STORE);
    case STATUS: return of->status(z.n, z.k, z.s, z.b, book, lengths[BOOK]);
    case READ: return of->read(STORE, x, y);
    case DRIVE: return of->drive(STORE, x, bytes_of(level, SPACE), lengths[SPACE]);
    default: return of->rebuild(z.n, z.k, z.b, bytes_of(level, STRIPE), lengths[STRIPE], bytes_of(level, LOSSES), lengths[LOSSES]);
  }
}

static void differ(const char *what, enum call call, struct shape z, size_t x, size_t y) {
  fprintf(stderr, "tests/levels.c: the levels differ in the %s after %s of %zu %zu %zu, B = %zu, with %zu %zu (seed %lu, call %lu)\n", what,
          names[call], z.n, z.k, z.s, z.b, x, y, seed, calls);
  exit(1);
}

/* The same call at both levels; tells the code. */
static unsigned both(enum call call, struct shape z, size_t x, size_t y) {
  const uint64_t plain = at_level(0, call, z, x, y), wide = at_level(1, call, z, x, y);
  calls++;
  if (plain != wide) differ("answer", call, z, x, y);
  for (int of = 0; of < BUFFERS; of++)
    if (memcmp(memory[0][of], memory[1][of], sizes[of] + 2 * MARGIN)) differ(buffer_names[of], call, z, x, y);
  seen[call][taldrimsu_code_of(plain) % 64]++;
  return taldrimsu_code_of(plain);
}

/* A shape in range: n + s up to `widest`. */
static struct shape in_range(size_t widest, size_t b) {
  for (;;) {
    const size_t n = 2 + below(widest - 2), r = 1 + below(4), s = 1 + below(one_in(4) ? 9 : 3);
    if (r < n && n + s <= widest && s * (r - 1) <= n) return (struct shape){n, n - r, s, b};
  }
}

/* The shape with one of its numbers made another, or with too many new nodes. */
static struct shape spoilt(struct shape z) {
  const size_t wrong[] = {0, 1, 5, 20, 21, 4097, (size_t)1 << 32, SIZE_MAX};
  size_t *const numbers[] = {&z.n, &z.k, &z.s, &z.b};
  if (one_in(3)) return (struct shape){4, 1, 3, z.b};
  *numbers[below(4)] = wrong[below(8)];
  return z;
}

static size_t kept(struct shape z) { return z.n * z.k * (z.n + z.s); }
static size_t stripes(struct shape z) { return kept(z) + z.n * z.s * (z.n + z.s); }
static size_t transfers(struct shape z) { return z.s + z.n - z.k - 1; }

/* A word of a message or receipt. */
static uint32_t word_in(enum buffer of, size_t place) {
  const uint8_t *const bytes = bytes_of(0, of) + 4 * place;
  return (uint32_t)bytes[0] | (uint32_t)bytes[1] << 8 | (uint32_t)bytes[2] << 16 | (uint32_t)bytes[3] << 24;
}

/* A word of the book: of its header, of the stripe that the call looks at, or any. */
static size_t place_in_book(enum call call, struct shape z, size_t x) {
  const size_t named = word_in(call == DELIVER ? MESSAGE : SIGNED, 0) & 0x0FFFFFFF;
  const size_t w = call == DELIVER || call == RECEIPT ? named : x;
  if (one_in(3)) return below(4);
  return w < kept(z) && !one_in(4) ? 4 + 2 * w + below(2) : below(lengths[BOOK]);
}

static void flip(enum buffer of, size_t place, unsigned bit) {
  for (int level = 0; level < 2; level++) bytes_of(level, of)[place + bit / 8] ^= (uint8_t)(1u << bit % 8);
}

/* The call with something spoilt for as long as it takes: the shape, a length, a bit of the book or of what comes over the link. A longer
 * length ends within the margin. Bits 26 and 27 of a stripe's second word say that it is computed and released. */
static void spoil(enum call call, struct shape z, size_t x, size_t y) {
  const enum buffer of = (enum buffer)below(BUFFERS), link = one_in(2) ? MESSAGE : SIGNED;
  const size_t whole = lengths[of], place = 4 * place_in_book(call, z, x), place_in_link = 4 * below(4);
  const unsigned bit = (unsigned)(one_in(3) ? 26 + below(2) : below(32));
  switch (below(4)) {
    case 0: both(call, spoilt(z), x, y); break;
    case 1:
      lengths[of] = below(whole + MARGIN / sizeof(uint32_t));
      both(call, z, x, y);
      lengths[of] = whole;
      break;
    case 2:
      flip(BOOK, place, bit);
      both(call, z, x, y);
      flip(BOOK, place, bit);
      break;
    default:
      flip(link, place_in_link, bit);
      both(call, z, x, y);
      flip(link, place_in_link, bit);
  }
}

/* The call, and before it now and then the same with something spoilt. */
static unsigned make(enum call call, struct shape z, size_t x, size_t y) {
  if (one_in(4)) spoil(call, z, x, y);
  return both(call, z, x, y);
}

/* A node that the words of a message or receipt name: its sender or its receiver; now and then any. */
static size_t node_in(enum buffer of, int sender, struct shape z) {
  return one_in(8) ? near(z.n + z.s) : word_in(of, 1) >> (sender ? 20 : 12) & 0xFF;
}

/* Takes stripe g of the old store, loses some blocks of it, at times spoils a byte, and rebuilds it. */
static void rebuild(struct shape z) {
  const size_t g = below(stripes(z)), lost = below(z.n - z.k + 2);
  for (int level = 0; level < 2; level++) {
    for (size_t p = 0; p < z.n; p++) {
      const size_t node = (g + (p < z.k ? z.n - z.k + p : p - z.k)) % z.n;
      memcpy(bytes_of(level, STRIPE) + p * z.b, bytes_of(level, CELLS) + (g + node * stripes(z)) * z.b, z.b);
    }
    memset(bytes_of(level, LOSSES), 0, z.n);
  }
  for (size_t i = 0; i < lost; i++) {
    const size_t p = below(z.n);
    const uint8_t loss = one_in(20) ? 2 : 1, byte = (uint8_t)any();
    for (int level = 0; level < 2; level++) {
      bytes_of(level, LOSSES)[p] = loss;
      memset(bytes_of(level, STRIPE) + p * z.b, byte, z.b);
    }
  }
  if (one_in(4)) {
    const size_t place = below(z.n * z.b);
    for (int level = 0; level < 2; level++) bytes_of(level, STRIPE)[place] ^= 1;
  }
  make(REBUILD, z, 0, 0);
}

/* The calls of one transfer, up to some point, and some others. */
static void transfer(struct shape z) {
  const size_t w = near(kept(z)), e = near(transfers(z)), steps = below(6);
  if (one_in(8)) make(RELEASE, z, w, 0);
  if (steps >= 1) make(COMPUTE, z, w, 0);
  if (make(SEND, z, w, e) == TALDRIMSU_DONE && steps >= 2) {
    make(DELIVER, z, node_in(MESSAGE, 0, z), 0);
    if (one_in(8)) make(DELIVER, z, node_in(MESSAGE, 0, z), 0);
    if (steps >= 3) make(RECEIPT, z, node_in(SIGNED, 1, z), 0);
    if (one_in(8)) make(RECEIPT, z, node_in(SIGNED, 1, z), 0);
  }
  if (steps >= 4) make(RELEASE, z, w, 0);
  if (one_in(4)) make(DRIVE, z, below(2 * transfers(z)), 0);
  make(READ, z, near(stripes(z)), near(z.k));
  if (one_in(4)) make(STATUS, z, 0, 0);
  if (one_in(8)) make(CLOSE, z, 0, 0);
}

static void lend_all(struct shape z) {
  lend(CELLS, (z.n * stripes(z) + z.s * kept(z)) * z.b, 1);
  lend(BOOK, 4 + 2 * kept(z), 4);
  lend(MESSAGE, 16 + z.b, 1);
  lend(SIGNED, 16, 1);
  lend(SPACE, 32 + z.b, 1);
  lend(STRIPE, z.n * z.b, 1);
  lend(LOSSES, z.n, 1);
}

/* The life of one store. */
static void live(struct shape z) {
  lend_all(z);
  make(BEGIN, z, near((size_t)1 << 28), 0);
  make(ENCODE, z, 0, 0);
  for (int i = 0; i < 4; i++) rebuild(z);
  while (make(BEGIN, z, near((size_t)1 << 28), 0) != TALDRIMSU_DONE) both(ENCODE, z, 0, 0);
  for (int i = 0; i < 12; i++) transfer(z);
  make(DRIVE, z, SIZE_MAX, 0);
  make(SEND, z, below(kept(z)), 0);
  make(CLOSE, z, 0, 0);
  for (int i = 0; i < 3; i++) transfer(z);
  make(DELIVER, z, node_in(MESSAGE, 0, z), 0);
  make(RECEIPT, z, node_in(SIGNED, 1, z), 0);
  make(RELEASE, z, 0, 0);
}

/* Whether a function has given the codes that the header lists for it, and no others. */
static int complete(enum call call) {
  static const uint8_t listed[CALLS][12] = {
      {1, 2, 3},
      {1, 2, 3, 5, 12},
      {32, 1, 2, 3, 4, 13, 5},
      {1, 2, 3, 4, 13, 5, 6, 7},
      {32, 1, 2, 3, 4, 13, 5, 9, 10},
      {32, 1, 2, 3, 4, 13, 5, 9, 10, 6},
      {32, 1, 2, 3, 4, 13, 5, 6, 8},
      {1, 2, 3, 4, 13, 8},
      {41, 42, 1, 2, 3, 4},
      {1, 2, 3, 4, 5},
      {33, 34, 1, 2, 3, 4, 13},
      {1, 3, 5, 11, 12},
  };
  int all = 1;
  for (unsigned code = 0; code < 64; code++) {
    const int expected = code ? memchr(listed[call], (int)code, 12) != NULL : call != STATUS && call != DRIVE;
    if (expected == (seen[call][code] != 0)) continue;
    fprintf(stderr, "tests/levels.c: %s %s code %u (seed %lu)\n", names[call], expected ? "never gave" : "gave", code, seed);
    all = 0;
  }
  return all;
}

int main(int count, char **arguments) {
  static const size_t blocks[] = {1, 2, 3, 7, 15, 16, 17, 31, 32, 33, 63, 64, 65, 100, 127, 128, 129, 255, 256, 257, 300, 511, 512, 513};
  static const size_t long_blocks[] = {767, 1000, 1024, 1025, 2047, 3000, 4095, 4096};
  int all = 1;
  __builtin_cpu_init();
  if (!__builtin_cpu_supports("avx2")) {
    puts("tests/levels: this processor has no AVX2: the levels are not compared");
    return 0;
  }
  seed = count == 2 ? strtoul(arguments[1], NULL, 10) : 1;
  state = seed;
  for (int i = 0; i < 240; i++) live(in_range(8, blocks[below(sizeof blocks / sizeof *blocks)]));
  for (int i = 0; i < 24; i++) live(in_range(20, 1 + below(4)));
  for (int i = 0; i < 24; i++) live(in_range(5, long_blocks[below(sizeof long_blocks / sizeof *long_blocks)]));
  for (int call = 0; call < CALLS; call++) all &= complete((enum call)call);
  if (!all) return 1;
  printf("tests/levels: %lu calls at both levels: the same answers and the same bytes\n", calls);
  return 0;
}
