/* The arithmetic of one step of document 01, with document 02's S-5 and S-6, as plain C, with no test of its input. Compiled with LARGE it is
   that of S-10's ceilings too, with which a mass has up to 36 bits and a product of the limiter more than 64. */
#ifndef PLAIN_STEP_H
#define PLAIN_STEP_H

#include <stddef.h>
#include <stdint.h>

enum { RIM = 4095 };

/* Four numbers of a cell and its low-order q. Before the limiter: q, lo, hi. In it: P, L, G, N. */
struct cell {
  uint64_t q_or_p, lo_or_l, hi_or_g, n, low_q;
};

typedef int64_t correction_type;

static inline void widen(struct cell *c, uint64_t q) {
  if (q < c->lo_or_l) c->lo_or_l = q;
  if (q > c->hi_or_g) c->hi_or_g = q;
}

#ifdef LARGE
typedef uint64_t mass_type;
typedef unsigned __int128 product_type;
#else
typedef uint32_t mass_type; /* 32 bits divide faster */
typedef uint64_t product_type;
#endif

static inline uint64_t concentration(uint64_t mass, uint64_t volume) { return (mass_type)mass / (mass_type)volume; }

static inline uint64_t portion(uint64_t a, uint64_t g, uint64_t p) { return p <= g ? a : (uint64_t)((product_type)a * g / p); }

static void step(size_t cells, size_t faces, const uint64_t *restrict volume, const uint64_t *restrict first,
                 const uint64_t *restrict second, const uint64_t *restrict share, const uint64_t *restrict reach,
                 const uint64_t *restrict mass, const int64_t *restrict flux, const uint64_t *restrict outside,
                 const uint64_t *restrict release, uint64_t *restrict after, int64_t *restrict through,
                 struct cell *restrict cell, correction_type *restrict correction, uint64_t *restrict in_mass,
                 uint64_t *restrict out_mass, uint64_t *restrict released_mass) {
  uint64_t in = 0, out = 0, released = 0;
  for (size_t c = 0; c < cells; c++) {
    uint64_t raised = mass[c] + release[c];
    uint64_t q = concentration(raised, volume[c]);
    cell[c].q_or_p = cell[c].lo_or_l = cell[c].hi_or_g = q;
    after[c] = raised;
    released += release[c];
  }

  for (size_t f = 0; f < faces; f++) {
    int64_t u = flux[f];
    struct cell *a = &cell[first[f]];
    if (second[f] == RIM) {
      int64_t carried = u * (int64_t)(u < 0 ? outside[f] : a->q_or_p);
      through[f] = carried;
      correction[f] = 0;
      after[first[f]] -= carried;
      if (u < 0) {
        in -= carried;
        widen(a, outside[f]);
      } else {
        out += carried;
      }
      continue;
    }
    if (u == 0) {
      through[f] = 0;
      correction[f] = 0;
      continue;
    }
    struct cell *b = &cell[second[f]];
    int64_t qa = a->q_or_p, qb = b->q_or_p, k = reach[f];
    int64_t size = u < 0 ? -u : u;
    int64_t d = u < 0 ? qa - qb : qb - qa;
    int64_t t = u < 0 ? 256 - share[f] : share[f];
    int64_t carried = u * (u < 0 ? qb : qa);
    through[f] = carried;
    correction[f] = u * d * (t * k - 128 * size) / (256 * k);
    after[first[f]] -= carried;
    after[second[f]] += carried;
    widen(a, qb);
    widen(b, qa);
  }
  *in_mass += in;
  *out_mass += out;
  *released_mass += released;

  for (size_t c = 0; c < cells; c++) {
    uint64_t v = volume[c], m = after[c];
    cell[c].hi_or_g = v * cell[c].hi_or_g + v - 1 - m;
    cell[c].lo_or_l = m - v * cell[c].lo_or_l;
    cell[c].q_or_p = cell[c].n = 0;
    cell[c].low_q = concentration(m, v);
  }

  for (size_t f = 0; f < faces; f++) {
    int64_t x = correction[f];
    if (x == 0) continue;
    struct cell *receiver = &cell[x < 0 ? first[f] : second[f]];
    struct cell *giver = &cell[x < 0 ? second[f] : first[f]];
    if (giver->low_q > receiver->low_q) {
      correction[f] = 0;
      continue;
    }
    uint64_t size = x < 0 ? -x : x;
    receiver->q_or_p += size;
    giver->n += size;
  }

  for (size_t f = 0; f < faces; f++) {
    int64_t x = correction[f];
    if (x == 0) continue;
    uint64_t size = x < 0 ? -x : x;
    const struct cell *receiver = &cell[x < 0 ? first[f] : second[f]];
    const struct cell *giver = &cell[x < 0 ? second[f] : first[f]];
    uint64_t gained = portion(size, receiver->hi_or_g, receiver->q_or_p);
    uint64_t lost = portion(size, giver->lo_or_l, giver->n);
    int64_t cut = gained < lost ? gained : lost;
    if (x < 0) cut = -cut;
    through[f] += cut;
    after[first[f]] -= cut;
    after[second[f]] += cut;
  }
}

#endif
