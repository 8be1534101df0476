/* The step of plain_step.h tuned: the same figures, with every trick that the engine has or that was found on the way to it.

   - A face's correction stands in one entry with its giver and receiver, so that the limiter reads no ends and asks for no sign.
   - What depends on a sign or an order is chosen without a branch, since either way is as likely; a branch is left where one way is rare: at
     the rim, in still water, at a correction that is cancelled. The limiter's own test stays one, since it saves a division.
   - One signed product is a correction; its size is divided by 256 and then by the reach, in 32 bits where they suffice.
   - Within the old ceilings what a cell may lose and may gain share an entry, so that a cell has 32 bytes. */
#ifndef TUNED_STEP_H
#define TUNED_STEP_H

#include <stddef.h>
#include <stdint.h>

enum { RIM = 4095 };

/* In the first two passes: q, and the least and greatest that the cell meets. In the limiter: low-order q, what corrections bring (P) and
   take (N), and what the cell may lose (L) and gain (G). */
#ifdef LARGE
struct cell {
  uint64_t q, lo_or_p, hi_or_g, n, l;
};
static inline uint64_t may_lose(const struct cell *c) { return c->l; }
static inline uint64_t may_gain(const struct cell *c) { return c->hi_or_g; }
static inline void allow(struct cell *c, uint64_t l, uint64_t g) { c->l = l, c->hi_or_g = g; }
#else
struct cell {
  uint64_t q, lo_or_p, hi_or_lg, n;
};
static inline uint64_t may_lose(const struct cell *c) { return c->hi_or_lg >> 32; }
static inline uint64_t may_gain(const struct cell *c) { return (uint32_t)c->hi_or_lg; }
static inline void allow(struct cell *c, uint64_t l, uint64_t g) { c->hi_or_lg = l << 32 | g; }
#define hi_or_g hi_or_lg
#endif

static inline void widen(struct cell *c, uint64_t q) {
  uint64_t lo = c->lo_or_p, hi = c->hi_or_g;
  c->lo_or_p = q < lo ? q : lo;
  c->hi_or_g = q > hi ? q : hi;
}

/* b has at most 32 bits. */
static inline uint64_t quotient(uint64_t a, uint64_t b) { return a >> 32 ? a / b : (uint32_t)a / (uint32_t)b; }

#ifdef LARGE
static inline uint64_t concentration(uint64_t mass, uint64_t volume) { return quotient(mass, volume); }
#else
static inline uint64_t concentration(uint64_t mass, uint64_t volume) { return (uint32_t)mass / (uint32_t)volume; }
#endif

static inline uint64_t portion(uint64_t a, uint64_t g, uint64_t p) {
  if (p <= g) return a;
#ifdef LARGE
  uint64_t product;
  if (__builtin_mul_overflow(a, g, &product)) return (uint64_t)((unsigned __int128)a * g / p);
  return product / p;
#else
  return a * g / p;
#endif
}

/* A correction with its ends: its size, at most 36 bits, from bit 25; whether it runs from second to first, bit 24; giver and receiver,
   12 bits each. An entry below ONE is no correction. */
typedef uint64_t correction_type;
enum { BACK = 24, SIZE = 25, END = 12, END_MASK = 4095 };
static const uint64_t ONE = 1ull << SIZE;

static inline uint64_t oriented(int64_t x, uint64_t size, uint64_t first, uint64_t second) {
  uint64_t back = x < 0, swapped = (first ^ second) & -back;
  return size << SIZE | back << BACK | (first ^ swapped) << END | (second ^ swapped);
}

static void step(size_t cells, size_t faces, const uint64_t *restrict volume, const uint64_t *restrict first,
                 const uint64_t *restrict second, const uint64_t *restrict share, const uint64_t *restrict reach,
                 const uint64_t *restrict mass, const int64_t *restrict flux, const uint64_t *restrict outside,
                 const uint64_t *restrict release, uint64_t *restrict after, int64_t *restrict through,
                 struct cell *restrict cell, correction_type *restrict correction, uint64_t *restrict in_mass,
                 uint64_t *restrict out_mass, uint64_t *restrict released_mass) {
  uint64_t in = 0, out = 0, released = 0;
  for (size_t c = 0; c < cells; c++) {
    uint64_t raised = mass[c] + release[c];
    uint64_t q = concentration(raised, volume[c]);
    cell[c].q = cell[c].lo_or_p = cell[c].hi_or_g = q;
    after[c] = raised;
    released += release[c];
  }

  for (size_t f = 0; f < faces; f++) {
    int64_t u = flux[f];
    uint64_t i = first[f], j = second[f];
    struct cell *a = &cell[i];
    if (j == RIM) {
      int64_t carried = u * (int64_t)(u < 0 ? outside[f] : a->q);
      through[f] = carried;
      correction[f] = 0;
      after[i] -= carried;
      if (u < 0) {
        in -= carried;
        widen(a, outside[f]);
      } else {
        out += carried;
      }
      continue;
    }
    if (u == 0) {
      through[f] = 0;
      correction[f] = 0;
      continue;
    }
    struct cell *b = &cell[j];
    int64_t qa = a->q, qb = b->q, k = reach[f], t = share[f];
    int64_t size = u < 0 ? -u : u;
    int64_t carried = u * (u < 0 ? qb : qa);
    through[f] = carried;
    after[i] -= carried;
    after[j] += carried;
    int64_t x = size * (qb - qa) * ((u < 0 ? 256 - t : t) * k - 128 * size);
    correction[f] = oriented(x, quotient((uint64_t)(x < 0 ? -x : x) / 256, k), i, j);
    widen(a, qb);
    widen(b, qa);
  }
  *in_mass += in;
  *out_mass += out;
  *released_mass += released;

  for (size_t c = 0; c < cells; c++) {
    uint64_t v = volume[c], m = after[c];
    allow(&cell[c], m - v * cell[c].lo_or_p, v * cell[c].hi_or_g + v - 1 - m);
    cell[c].q = concentration(m, v);
    cell[c].lo_or_p = cell[c].n = 0;
  }

  for (size_t f = 0; f < faces; f++) {
    uint64_t x = correction[f];
    if (x < ONE) continue;
    struct cell *giver = &cell[x >> END & END_MASK], *receiver = &cell[x & END_MASK];
    if (giver->q > receiver->q) {
      correction[f] = 0;
      continue;
    }
    receiver->lo_or_p += x >> SIZE;
    giver->n += x >> SIZE;
  }

  for (size_t f = 0; f < faces; f++) {
    uint64_t x = correction[f];
    if (x < ONE) continue;
    uint64_t giver = x >> END & END_MASK, receiver = x & END_MASK;
    uint64_t gained = portion(x >> SIZE, may_gain(&cell[receiver]), cell[receiver].lo_or_p);
    uint64_t lost = portion(x >> SIZE, may_lose(&cell[giver]), cell[giver].n);
    uint64_t cut = gained < lost ? gained : lost;
    int64_t back = -(int64_t)(x >> BACK & 1);
    through[f] += ((int64_t)cut ^ back) - back;
    after[giver] -= cut;
    after[receiver] += cut;
  }
}

#endif
