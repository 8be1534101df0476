/* The straightforward plain C host: unpacks mesh, field and step field by field, packs the next field, prints by printf, tests nothing. */
#ifndef PLAIN_HOST_H
#define PLAIN_HOST_H

#include <stdio.h>
#include <string.h>

#include "host.h"

static void unpack_mesh(struct host *h, uint8_t *record) {
  struct cursor c = {record, 4};
  h->cells = get(&c, 12);
  h->faces = get(&c, 13);
  c.at += 3;
  for (size_t i = 0; i < h->cells; i++) h->volumes[i] = get(&c, VALUE_BITS);
  for (size_t f = 0; f < h->faces; f++) {
    h->firsts[f] = get(&c, 12);
    h->seconds[f] = get(&c, 12);
    h->shares[f] = get(&c, 8);
    h->reaches[f] = get(&c, VALUE_BITS);
  }
}

static void unpack_field(struct host *h, uint8_t *record) {
  struct cursor c = {record, 8 * FIELD_HEAD};
  for (size_t i = 0; i < h->cells; i++) h->masses[i] = get(&c, MASS_BITS);
}

static void unpack_step(struct host *h, uint8_t *record) {
  struct cursor c = {record, 8 * HEAD};
  for (size_t f = 0; f < h->faces; f++) {
    uint64_t minus = get(&c, 1);
    int64_t size = (int64_t)get(&c, VALUE_BITS);
    h->fluxes[f] = minus ? -size : size;
  }
  for (size_t f = 0; f < h->faces; f++) h->outsides[f] = h->seconds[f] == RIM ? get(&c, OUTSIDE_BITS) : 0;
  unsigned kind = kind_of(record);
  for (size_t i = 0; i < h->cells; i++) h->releases[i] = kind == OUTFALLS ? get(&c, MASS_BITS) : 0;
}

static void pack_field(const uint64_t *masses, size_t cells, uint8_t *record) {
  struct cursor c = {record, 0};
  memset(record, 0, FIELD_HEAD + MASS_BYTES * cells);
  put(&c, FIELD, 4);
  put(&c, cells, 12);
  for (size_t i = 0; i < cells; i++) put(&c, masses[i], MASS_BITS);
}

static void begin_run(void) {}

static void print_line(uint64_t number, uint64_t in_mass, uint64_t out_mass, uint64_t total, uint64_t released) {
  printf("%llu %llu %llu %llu %llu\n", (unsigned long long)number, (unsigned long long)in_mass, (unsigned long long)out_mass,
         (unsigned long long)total, (unsigned long long)released);
}

#endif
