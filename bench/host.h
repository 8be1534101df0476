/* What the two plain C hosts of the documents' records have in common: layouts, tables, writing bit by bit, and the step on the tables. The
   records are narrow, compiled with LARGE wide. */
#ifndef HOST_H
#define HOST_H

#include <stddef.h>
#include <stdint.h>

#include "step.h"

enum { HOST_CELLS = 1023, HOST_FACES = 2046, HEAD = 4, FIELD_HEAD = 2, RECORD = 16384 };

/* Bits of a volume, a reach and the size of a flux; of a mass and a release; and the kinds. */
#ifdef LARGE
enum { VALUE_BITS = 16, MASS_BITS = 40, MESH = 5, FIELD = 6, WATER = 7, OUTFALLS = 8 };
#else
enum { VALUE_BITS = 12, MASS_BITS = 32, MESH = 1, FIELD = 2, WATER = 3, OUTFALLS = 4 };
#endif
enum { FACE_BITS = 12 + 12 + 8 + VALUE_BITS, FLUX_BITS = 1 + VALUE_BITS, OUTSIDE_BITS = 20, MASS_BYTES = MASS_BITS / 8 };

/* A record and the bit that reading or writing has come to. */
struct cursor {
  uint8_t *bytes;
  size_t at;
};

/* The next field of so many bits, a turn for each byte that it touches. */
static inline uint64_t get(struct cursor *c, unsigned width) {
  size_t last = c->at + width - 1;
  uint64_t value = 0;
  for (size_t byte = c->at / 8; byte <= last / 8; byte++) value = value << 8 | c->bytes[byte];
  c->at += width;
  return value >> (7 - last % 8) & ((1ull << width) - 1);
}

/* Appends a field to a record whose bytes begin as zeros. */
static inline void put(struct cursor *c, uint64_t value, unsigned width) {
  size_t last = c->at + width - 1;
  value <<= 7 - last % 8;
  for (size_t byte = last / 8 + 1; byte-- > c->at / 8; value >>= 8) c->bytes[byte] |= (uint8_t)value;
  c->at += width;
}

static size_t whole_bytes(size_t bits) { return (bits + 7) / 8; }

static unsigned kind_of(const uint8_t *record) { return record[0] >> 4; }

struct host {
  size_t cells, faces;
  uint64_t volumes[HOST_CELLS], firsts[HOST_FACES], seconds[HOST_FACES], shares[HOST_FACES], reaches[HOST_FACES];
  uint64_t masses[HOST_CELLS], next[HOST_CELLS], outsides[HOST_FACES], releases[HOST_CELLS];
  int64_t fluxes[HOST_FACES], moved[HOST_FACES];
  correction_type corrections[HOST_FACES];
  struct cell work[HOST_CELLS];
  uint64_t in_mass, out_mass, released;
#ifdef TUNED
  size_t rims, rim[HOST_FACES]; /* the rim faces, listed when the mesh is read */
#endif
};

static void host_step(struct host *h) {
  h->in_mass = h->out_mass = h->released = 0;
  step(h->cells, h->faces, h->volumes, h->firsts, h->seconds, h->shares, h->reaches, h->masses, h->fluxes, h->outsides,
       h->releases, h->next, h->moved, h->work, h->corrections, &h->in_mass, &h->out_mass, &h->released);
}

#ifdef TUNED
#include "tuned_host.h"
#else
#include "plain_host.h"
#endif

#endif
