/* The plain C host tuned, for a processor whose numbers begin with their low byte.

   - A field is taken out of the eight bytes that begin with its first. Eight fields of n bits are n bytes, so in a turn for eight fields each
     has a place that the compiler knows. Buffers have room for eight bytes past a record.
   - A face of the mesh is one field of 44 or 48 bits, taken apart in a register.
   - The rim faces are listed once, so that no step record is read with a test for each face.
   - A mass is written by one store, of which the next mass covers what is too much.
   - The run's input is held ahead, and it makes its digits itself. */
#ifndef TUNED_HOST_H
#define TUNED_HOST_H

#include <stdio.h>
#include <string.h>

#include "host.h"

/* The field of so many bits, at most 57, that begins at a bit. */
static inline uint64_t field_at(const uint8_t *bytes, size_t bit, unsigned width) {
  uint64_t word;
  memcpy(&word, bytes + bit / 8, 8);
  return __builtin_bswap64(word) << bit % 8 >> (64 - width);
}

static inline void unpack_numbers(uint64_t *to, size_t count, const uint8_t *bytes, unsigned width) {
  size_t i = 0;
  for (; i + 8 <= count; i += 8, bytes += width)
#pragma GCC unroll 8
    for (size_t k = 0; k < 8; k++) to[i + k] = field_at(bytes, k * width, width);
  for (size_t k = 0; i + k < count; k++) to[i + k] = field_at(bytes, k * width, width);
}

static inline void take_face(struct host *h, size_t f, uint64_t row) {
  h->firsts[f] = row >> (20 + VALUE_BITS);
  h->seconds[f] = row >> (8 + VALUE_BITS) & 4095;
  h->shares[f] = row >> VALUE_BITS & 255;
  h->reaches[f] = row & ((1 << VALUE_BITS) - 1);
  h->rim[h->rims] = f;
  h->rims += h->seconds[f] == RIM;
}

/* The rows begin at bit 0 or 4 of a byte. */
static inline void unpack_faces(struct host *h, const uint8_t *bytes, size_t start) {
  size_t f = 0;
  for (; f + 8 <= h->faces; f += 8, bytes += FACE_BITS)
#pragma GCC unroll 8
    for (size_t k = 0; k < 8; k++) take_face(h, f + k, field_at(bytes, start + k * FACE_BITS, FACE_BITS));
  for (size_t k = 0; f + k < h->faces; k++) take_face(h, f + k, field_at(bytes, start + k * FACE_BITS, FACE_BITS));
}

static void unpack_mesh(struct host *h, uint8_t *record) {
  h->cells = field_at(record, 4, 12);
  h->faces = field_at(record, 16, 13);
  h->rims = 0;
  unpack_numbers(h->volumes, h->cells, record + HEAD, VALUE_BITS);
  size_t start = 8 * HEAD + VALUE_BITS * h->cells;
  if (start % 8 == 0)
    unpack_faces(h, record + start / 8, 0);
  else
    unpack_faces(h, record + start / 8, 4);
}

static void unpack_field(struct host *h, uint8_t *record) {
  unpack_numbers(h->masses, h->cells, record + FIELD_HEAD, MASS_BITS);
}

static inline int64_t signed_of(uint64_t code) {
  int64_t minus = -(int64_t)(code >> VALUE_BITS), size = code & ((1 << VALUE_BITS) - 1);
  return (size ^ minus) - minus;
}

static void unpack_step(struct host *h, uint8_t *record) {
  const uint8_t *bytes = record + HEAD;
  size_t f = 0, bit = 8 * HEAD + FLUX_BITS * h->faces;
  for (; f + 8 <= h->faces; f += 8, bytes += FLUX_BITS)
#pragma GCC unroll 8
    for (size_t k = 0; k < 8; k++) h->fluxes[f + k] = signed_of(field_at(bytes, k * FLUX_BITS, FLUX_BITS));
  for (size_t k = 0; f + k < h->faces; k++) h->fluxes[f + k] = signed_of(field_at(bytes, k * FLUX_BITS, FLUX_BITS));
  for (size_t r = 0; r < h->rims; r++, bit += OUTSIDE_BITS) h->outsides[h->rim[r]] = field_at(record, bit, OUTSIDE_BITS);
  if (kind_of(record) == OUTFALLS)
    for (size_t i = 0; i < h->cells; i++, bit += MASS_BITS) h->releases[i] = field_at(record, bit, MASS_BITS);
  else
    memset(h->releases, 0, h->cells * sizeof h->releases[0]);
}

static void pack_field(const uint64_t *masses, size_t cells, uint8_t *record) {
  record[0] = (uint8_t)(FIELD << 4 | cells >> 8);
  record[1] = (uint8_t)cells;
  for (size_t i = 0; i < cells; i++) {
    uint64_t word = __builtin_bswap64(masses[i] << (64 - MASS_BITS));
    memcpy(record + FIELD_HEAD + MASS_BYTES * i, &word, 8);
  }
}

static void begin_run(void) {
  static char ahead[1 << 16];
  setvbuf(stdin, ahead, _IOFBF, sizeof ahead);
}

/* The digits of a number, the last of them at `end`. */
static char *digits(char *end, uint64_t number) {
  do *end-- = (char)('0' + number % 10);
  while (number /= 10);
  return end;
}

static void print_line(uint64_t number, uint64_t in_mass, uint64_t out_mass, uint64_t total, uint64_t released) {
  uint64_t numbers[5] = {number, in_mass, out_mass, total, released};
  char line[5 * 21], *at = line + sizeof line - 1;
  for (int i = 4; i >= 0; i--) {
    *at-- = i == 4 ? '\n' : ' ';
    at = digits(at, numbers[i]);
  }
  fwrite(at + 1, 1, (size_t)(line + sizeof line - 1 - at), stdout);
}

#endif
