/* The arithmetic of one step of document 01 as plain C, with no test of its input, on a lagoon made here.
   crates/bench_step makes the same lagoon and calls the engine: both print the same line. Compiled with TUNED it is the tuned form; with
   LARGE it is that of document 02's S-10, on a lagoon of large cells.

   yardstick WIDTH HEIGHT ROUNDS: a grid of WIDTH * HEIGHT cells, at most 4,095; each round takes STEPS steps from the field that the one
   before left. Printed: total, in-mass and out-mass of all steps, digest of the last masses and moved. */
#include <stdio.h>
#include <stdlib.h>

#include "step.h"
#include "synthetic.h"

static uint64_t next[CELLS], releases[CELLS]; /* the step is lent releases, and they are 0 */
static int64_t moved[FACES];
static correction_type corrections[FACES];
static struct cell work[CELLS];

static uint64_t digest_of(size_t cells, size_t faces) {
  uint64_t digest = 1;
  for (size_t c = 0; c < cells; c++) digest = mixed(digest, masses[c]);
  for (size_t f = 0; f < faces; f++) {
    int64_t x = moved[f];
    digest = mixed(digest, x < 0 ? 2 * (uint64_t)-x + 1 : 2 * (uint64_t)x);
  }
  return digest;
}

static void run(size_t cells, size_t faces, uint64_t rounds, uint64_t *in_mass, uint64_t *out_mass) {
  uint64_t released = 0;
  for (uint64_t r = 0; r < rounds; r++) {
    next_season(faces, r);
    for (int s = 0; s < STEPS; s += 2) {
      step(cells, faces, volumes, firsts, seconds, shares, reaches, masses, fluxes, outsides, releases, next, moved, work,
           corrections, in_mass, out_mass, &released);
      step(cells, faces, volumes, firsts, seconds, shares, reaches, next, fluxes, outsides, releases, masses, moved, work,
           corrections, in_mass, out_mass, &released);
    }
  }
}

int main(int argc, char **argv) {
  uint64_t width = argc == 4 ? strtoull(argv[1], 0, 10) : 0, height = argc == 4 ? strtoull(argv[2], 0, 10) : 0;
  uint64_t rounds = argc == 4 ? strtoull(argv[3], 0, 10) : 0;
  if (width < 1 || width > CELLS || height < 1 || height > CELLS || width * height > CELLS) {
    fprintf(stderr, "yardstick WIDTH HEIGHT ROUNDS\n");
    return 2;
  }
  size_t cells = width * height, faces = 2 * cells;
  make(width, height);
  uint64_t in_mass = 0, out_mass = 0, total = 0;
  run(cells, faces, rounds, &in_mass, &out_mass);
  for (size_t c = 0; c < cells; c++) total += masses[c];
  printf("%llu %llu %llu %llu\n", (unsigned long long)total, (unsigned long long)in_mass,
         (unsigned long long)out_mass, (unsigned long long)digest_of(cells, faces));
  return 0;
}
