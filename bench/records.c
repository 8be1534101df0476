/* The host's call on records, and the same as plain C, on the lagoon of the yardstick.

   records call WIDTH HEIGHT ROUNDS      lagoon_step on a mesh, a field and a step record
   records plain WIDTH HEIGHT ROUNDS     the plain host: unpacks the three records, steps and packs
   records unpack WIDTH HEIGHT ROUNDS    the plain host without the step, to know what unpacking and packing cost
   records session WIDTH HEIGHT ROUNDS   writes a session for the run, with STEPS * ROUNDS steps
   records run                           the plain host as a run: a session from standard input, a line for each step

   At most 1,023 cells. The records are narrow, compiled with LARGE wide; the plain host is straightforward, compiled with TUNED tuned. A
   round takes STEPS steps from the field that the one before left; the first three print the total and a digest of the last field. */
#include <stdio.h>
#include <stdlib.h>
#include <string.h>

#include "../include/lagoon.h"
#include "host.h"
#include "synthetic.h"

static uint8_t mesh[RECORD], water[RECORD], here[RECORD], there[RECORD];
static size_t mesh_length, water_length, field_length;
static struct host host;

static void pack_mesh(size_t cells, size_t faces) {
  struct cursor c = {mesh, 0};
  put(&c, MESH, 4);
  put(&c, cells, 12);
  put(&c, faces, 13);
  put(&c, 0, 3);
  for (size_t i = 0; i < cells; i++) put(&c, volumes[i], VALUE_BITS);
  for (size_t f = 0; f < faces; f++) {
    put(&c, firsts[f], 12);
    put(&c, seconds[f], 12);
    put(&c, shares[f], 8);
    put(&c, reaches[f], VALUE_BITS);
  }
  mesh_length = whole_bytes(c.at);
}

/* The head and the fluxes, which all steps share. */
static void pack_fluxes(size_t faces) {
  struct cursor c = {water, 0};
  put(&c, WATER, 4);
  put(&c, faces, 13);
  put(&c, 0, 15);
  for (size_t f = 0; f < faces; f++) {
    put(&c, fluxes[f] < 0, 1);
    put(&c, (uint64_t)llabs(fluxes[f]), VALUE_BITS);
  }
}

/* The outside values after them, over those of the round before. */
static void pack_outsides(size_t faces) {
  size_t begin = 8 * HEAD + FLUX_BITS * faces;
  struct cursor c = {water, begin};
  if (begin % 8) water[begin / 8] &= (uint8_t)(0xff00 >> begin % 8);
  memset(water + whole_bytes(begin), 0, RECORD - whole_bytes(begin));
  for (size_t f = 0; f < faces; f++)
    if (seconds[f] == RIM) put(&c, outsides[f], OUTSIDE_BITS);
  water_length = whole_bytes(c.at);
}

/* One step from one field record to the next, in the three ways. */

static void by_call(uint8_t *from, uint8_t *to) {
  uint64_t answer = lagoon_step(mesh, mesh_length, from, field_length, water, water_length, to, field_length);
  if (answer != 0) {
    fprintf(stderr, "records: the call answers %llu\n", (unsigned long long)answer);
    exit(1);
  }
}

static void by_plain(uint8_t *from, uint8_t *to) {
  unpack_mesh(&host, mesh);
  unpack_field(&host, from);
  unpack_step(&host, water);
  host_step(&host);
  pack_field(host.next, host.cells, to);
}

static void by_unpack(uint8_t *from, uint8_t *to) {
  unpack_mesh(&host, mesh);
  unpack_field(&host, from);
  unpack_step(&host, water);
  pack_field(host.masses, host.cells, to);
}

static void take_rounds(void (*way)(uint8_t *, uint8_t *), size_t cells, size_t faces, uint64_t rounds) {
  for (uint64_t r = 0; r < rounds; r++) {
    next_season(faces, r);
    pack_outsides(faces);
    for (int s = 0; s < STEPS; s += 2) {
      way(here, there);
      way(there, here);
    }
  }
  host.cells = cells;
  unpack_field(&host, here);
  uint64_t total = 0, digest = 1;
  for (size_t c = 0; c < cells; c++) {
    total += host.masses[c];
    digest = mixed(digest, host.masses[c]);
  }
  printf("%llu %llu\n", (unsigned long long)total, (unsigned long long)digest);
}

static void write_session(size_t faces, uint64_t rounds) {
  fwrite(mesh, 1, mesh_length, stdout);
  fwrite(here, 1, field_length, stdout);
  for (uint64_t r = 0; r < rounds; r++) {
    next_season(faces, r);
    pack_outsides(faces);
    for (int s = 0; s < STEPS; s++) fwrite(water, 1, water_length, stdout);
  }
}

static uint64_t total_of(const uint64_t *masses, size_t cells) {
  uint64_t total = 0;
  for (size_t c = 0; c < cells; c++) total += masses[c];
  return total;
}

static void take(uint8_t *bytes, size_t length) {
  if (fread(bytes, 1, length, stdin) != length) exit(1);
}

static void run_session(void) {
  begin_run();
  take(mesh, HEAD);
  struct cursor c = {mesh, 4};
  size_t cells = get(&c, 12), faces = get(&c, 13), rims = 0;
  take(mesh + HEAD, whole_bytes(VALUE_BITS * cells + FACE_BITS * faces));
  unpack_mesh(&host, mesh);
  take(here, FIELD_HEAD + MASS_BYTES * cells);
  unpack_field(&host, here);
  for (size_t f = 0; f < faces; f++) rims += host.seconds[f] == RIM;
  size_t body = whole_bytes(FLUX_BITS * faces + OUTSIDE_BITS * rims);
  print_line(0, 0, 0, total_of(host.masses, cells), 0);
  for (uint64_t number = 1; fread(water, 1, HEAD, stdin) == HEAD; number++) {
    take(water + HEAD, body + (kind_of(water) == OUTFALLS ? MASS_BYTES * cells : 0));
    unpack_step(&host, water);
    host_step(&host);
    memcpy(host.masses, host.next, cells * sizeof host.next[0]);
    print_line(number, host.in_mass, host.out_mass, total_of(host.masses, cells), host.released);
  }
}

static int usage(void) {
  fprintf(stderr, "records call|plain|unpack|session WIDTH HEIGHT ROUNDS, or records run\n");
  return 2;
}

int main(int argc, char **argv) {
  if (argc == 2 && strcmp(argv[1], "run") == 0) {
    run_session();
    return 0;
  }
  if (argc != 5) return usage();
  uint64_t width = strtoull(argv[2], 0, 10), height = strtoull(argv[3], 0, 10), rounds = strtoull(argv[4], 0, 10);
  if (width < 1 || width > HOST_CELLS || height < 1 || height > HOST_CELLS || width * height > HOST_CELLS) return usage();
  size_t cells = width * height, faces = 2 * cells;
  make(width, height);
  pack_mesh(cells, faces);
  pack_fluxes(faces);
  pack_field(masses, cells, here);
  field_length = FIELD_HEAD + MASS_BYTES * cells;
  if (strcmp(argv[1], "call") == 0)
    take_rounds(by_call, cells, faces, rounds);
  else if (strcmp(argv[1], "plain") == 0)
    take_rounds(by_plain, cells, faces, rounds);
  else if (strcmp(argv[1], "unpack") == 0)
    take_rounds(by_unpack, cells, faces, rounds);
  else if (strcmp(argv[1], "session") == 0)
    write_session(faces, rounds);
  else
    return usage();
  return 0;
}
