/* The lagoon that is stepped: a grid whose west and north sides are shores and whose east and south sides are open. Compiled with LARGE it
   is the same with volumes, reaches and fluxes SCALE times as large, volumes and reaches up to document 02's ceiling. */
#ifndef SYNTHETIC_H
#define SYNTHETIC_H

#include <stdint.h>

#include "step.h"

enum { CELLS = 4095, FACES = 8190, STEPS = 16, PRIME = 1000000007, BASE = 1000003, CEILING = 65535 };

#ifdef LARGE
enum { SCALE = 436 };
#else
enum { SCALE = 1 };
#endif

static uint64_t volumes[CELLS], firsts[FACES], seconds[FACES], shares[FACES], reaches[FACES];
static uint64_t masses[CELLS], outsides[FACES];
static int64_t fluxes[FACES];

static uint64_t wave(uint64_t k) {
  uint64_t r = k % 24;
  return r < 12 ? r : 24 - r;
}

/* The stream function at a corner of the grid: gyres of 12 cells, and a ripple. It is 0 on the shores. */
static uint64_t stream(uint64_t x, uint64_t y) { return 5 * wave(x) * wave(y) + 37 * x * y % 11; }

static uint64_t scaled(uint64_t value) { return SCALE * value < CEILING ? SCALE * value : CEILING; }

/* A face's flux is the difference of the stream function at its ends, so inflow and outflow of a cell agree. Its
   size is at most 70, a reach at least 80 and a volume at least 150, each times SCALE. */
static void make(uint64_t width, uint64_t height) {
  uint64_t cells = width * height;
  for (uint64_t c = 0; c < cells; c++) {
    uint64_t x = c % width, y = c / width;
    volumes[c] = scaled(150 + 29 * c % 256);
    uint64_t q = (x / 6 + y / 6) % 2 == 0 ? 900000 + 7919 * c % 100000 : 4973 * c % 100000;
    masses[c] = volumes[c] * q + 31 * c % 150;
    for (uint64_t side = 0; side < 2; side++) {
      uint64_t f = 2 * c + side;
      int open = side == 0 ? x + 1 == width : y + 1 == height;
      firsts[f] = c;
      seconds[f] = open ? RIM : side == 0 ? c + 1 : c + width;
      shares[f] = open ? 0 : 64 + 53 * f % 128;
      reaches[f] = open ? 0 : scaled(80 + 23 * f % 256);
      fluxes[f] = SCALE * (side == 0 ? (int64_t)stream(x + 1, y + 1) - (int64_t)stream(x + 1, y)
                                     : (int64_t)stream(x, y + 1) - (int64_t)stream(x + 1, y + 1));
    }
  }
}

static uint64_t mixed(uint64_t digest, uint64_t x) { return (digest * BASE + x % PRIME) % PRIME; }

/* Before each round: other outside values where water comes in over the rim, by a rule that does not come round again soon. So fronts go on
   entering, and no branch predictor meets a step that it has learnt. */
static void next_season(size_t faces, uint64_t round) {
  static uint64_t season = 1;
  season = mixed(season, round);
  for (size_t f = 0; f < faces; f++)
    if (seconds[f] == RIM && fluxes[f] < 0) outsides[f] = (f + season) % 5 * 250000;
}

#endif
