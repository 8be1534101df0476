/* Records packed and taken apart in C, without tables: a face is a struct, and a value is read where it stands.
 *
 * This file is to be copied. It is no part of the proved library, whose lagoon_read_mesh, lagoon_write_mesh and so on are: the gate compares
 * it with the run program on stored sessions. */
#ifndef LAGOON_RECORDS_H
#define LAGOON_RECORDS_H

#include "lagoon.h"

/* Bits of a number that is as wide in all records. */
enum {
    LAGOON_KIND_BITS = 4, LAGOON_CELLS_BITS = 12, LAGOON_FACES_BITS = 13, LAGOON_END_BITS = 12, LAGOON_SHARE_BITS = 8,
    LAGOON_SIGN_BITS = 1, LAGOON_OUTSIDE_BITS = 20, LAGOON_MESH_HEAD = 32, LAGOON_FIELD_HEAD = 16, LAGOON_STEP_HEAD = 32
};

/* Bits of a volume, a reach and the size of a flux. */
static inline unsigned lagoon_value_bits(enum lagoon_width width)
{
    return width == LAGOON_WIDE ? 16 : 12;
}

/* Bits of a mass and of a release. */
static inline unsigned lagoon_mass_bits(enum lagoon_width width)
{
    return width == LAGOON_WIDE ? 40 : 32;
}

static inline unsigned lagoon_face_bits(enum lagoon_width width)
{
    return 2 * LAGOON_END_BITS + LAGOON_SHARE_BITS + lagoon_value_bits(width);
}

static inline unsigned lagoon_flux_bits(enum lagoon_width width)
{
    return LAGOON_SIGN_BITS + lagoon_value_bits(width);
}

/* A kind of the narrow records as it is in a width. */
static inline enum lagoon_kind lagoon_kind_in(enum lagoon_width width, enum lagoon_kind narrow)
{
    return width == LAGOON_WIDE ? (enum lagoon_kind)(narrow + (LAGOON_WIDE_MESH - LAGOON_MESH)) : narrow;
}

/* Bytes of a mesh, a field, and a step without and with releases, by the width. */
static inline size_t lagoon_mesh_bytes(enum lagoon_width width, size_t cells, size_t faces)
{
    return width == LAGOON_WIDE ? LAGOON_WIDE_MESH_BYTES(cells, faces) : LAGOON_MESH_BYTES(cells, faces);
}

static inline size_t lagoon_field_bytes(enum lagoon_width width, size_t cells)
{
    return width == LAGOON_WIDE ? LAGOON_WIDE_FIELD_BYTES(cells) : LAGOON_FIELD_BYTES(cells);
}

static inline size_t lagoon_step_bytes(enum lagoon_width width, size_t faces, size_t rim_faces)
{
    return width == LAGOON_WIDE ? LAGOON_WIDE_STEP_BYTES(faces, rim_faces) : LAGOON_STEP_BYTES(faces, rim_faces);
}

static inline size_t lagoon_outfalls_bytes(enum lagoon_width width, size_t cells, size_t faces, size_t rim_faces)
{
    return width == LAGOON_WIDE ? LAGOON_WIDE_OUTFALLS_BYTES(cells, faces, rim_faces) : LAGOON_OUTFALLS_BYTES(cells, faces, rim_faces);
}

/* A face of a mesh. */
struct lagoon_face {
    uint32_t first, second, share, reach;
};

/* The number of so many bits, at most 64, that begins at a bit of a record, the most significant bit first. */
static inline uint64_t lagoon_get(const uint8_t *record, size_t bit, unsigned bits)
{
    uint64_t value = 0;
    for (size_t end = bit + bits; bit < end; bit++)
        value = value << 1 | (record[bit / 8] >> (7 - bit % 8) & 1u);
    return value;
}

/* Writes it there, over whatever those bits were. Answers the bit after it. */
static inline size_t lagoon_put(uint8_t *record, size_t bit, unsigned bits, uint64_t value)
{
    for (; bits > 0; bit++) {
        uint8_t mask = (uint8_t)(0x80u >> (bit % 8));
        bits--;
        record[bit / 8] = (uint8_t)((value >> bits & 1u) ? record[bit / 8] | mask : record[bit / 8] & ~mask);
    }
    return bit;
}

/* Zero bits up to a whole byte. Answers the bytes of the record. */
static inline size_t lagoon_pad(uint8_t *record, size_t bit)
{
    return lagoon_put(record, bit, (unsigned)(7 - (bit + 7) % 8), 0) / 8;
}

static inline size_t lagoon_rim_faces(size_t faces, const struct lagoon_face *face)
{
    size_t count = 0;
    for (size_t f = 0; f < faces; f++)
        count += face[f].second == LAGOON_RIM;
    return count;
}

/* The width that a mesh asks for. On a mesh whose narrow record holds it every field and step that is accepted fits narrow records. */
static inline enum lagoon_width lagoon_width_for(size_t cells, const uint32_t *volumes, size_t faces, const struct lagoon_face *face)
{
    for (size_t c = 0; c < cells; c++)
        if (volumes[c] > LAGOON_NARROW_MAX)
            return LAGOON_WIDE;
    for (size_t f = 0; f < faces; f++)
        if (face[f].reach > LAGOON_NARROW_MAX)
            return LAGOON_WIDE;
    return LAGOON_NARROW;
}

/* The mesh record, kind 1 or 5; record has lagoon_mesh_bytes(width, cells, faces) bytes. Answers that length, and so do the writers below
 * theirs. A value that its bits cannot hold loses its highest bits: the writers test nothing. */
static inline size_t lagoon_put_mesh(uint8_t *record, enum lagoon_width width, size_t cells, const uint32_t *volumes, size_t faces,
                                     const struct lagoon_face *face)
{
    size_t at = lagoon_put(record, 0, LAGOON_KIND_BITS, lagoon_kind_in(width, LAGOON_MESH));
    at = lagoon_put(record, at, LAGOON_CELLS_BITS, cells);
    at = lagoon_put(record, at, LAGOON_FACES_BITS, faces);
    at = lagoon_put(record, at, (unsigned)(LAGOON_MESH_HEAD - at), 0);
    for (size_t c = 0; c < cells; c++)
        at = lagoon_put(record, at, lagoon_value_bits(width), volumes[c]);
    for (size_t f = 0; f < faces; f++) {
        at = lagoon_put(record, at, LAGOON_END_BITS, face[f].first);
        at = lagoon_put(record, at, LAGOON_END_BITS, face[f].second);
        at = lagoon_put(record, at, LAGOON_SHARE_BITS, face[f].share);
        at = lagoon_put(record, at, lagoon_value_bits(width), face[f].reach);
    }
    return lagoon_pad(record, at);
}

/* A mass, or a release, of each cell. Answers the bit after them. */
static inline size_t lagoon_put_masses(uint8_t *record, size_t at, enum lagoon_width width, size_t cells, const uint64_t *masses)
{
    for (size_t c = 0; c < cells; c++)
        at = lagoon_put(record, at, lagoon_mass_bits(width), masses[c]);
    return at;
}

/* The field record, kind 2 or 6; record has lagoon_field_bytes(width, cells) bytes. The width is the mesh's, here and in a step. */
static inline size_t lagoon_put_field(uint8_t *record, enum lagoon_width width, size_t cells, const uint64_t *masses)
{
    size_t at = lagoon_put(record, 0, LAGOON_KIND_BITS, lagoon_kind_in(width, LAGOON_FIELD));
    at = lagoon_put(record, at, LAGOON_CELLS_BITS, cells);
    return lagoon_put_masses(record, at, width, cells, masses) / 8;
}

/* The head of a step record with or without releases, its fluxes and its outside values. Answers the bit after them. */
static inline size_t lagoon_put_water(uint8_t *record, enum lagoon_width width, enum lagoon_kind narrow, size_t faces,
                                      const struct lagoon_face *face, const int32_t *fluxes, const uint32_t *outsides)
{
    size_t at = lagoon_put(record, 0, LAGOON_KIND_BITS, lagoon_kind_in(width, narrow));
    at = lagoon_put(record, at, LAGOON_FACES_BITS, faces);
    at = lagoon_put(record, at, (unsigned)(LAGOON_STEP_HEAD - at), 0);
    for (size_t f = 0; f < faces; f++) {
        at = lagoon_put(record, at, LAGOON_SIGN_BITS, fluxes[f] < 0);
        at = lagoon_put(record, at, lagoon_value_bits(width), fluxes[f] < 0 ? 0u - (uint32_t)fluxes[f] : (uint32_t)fluxes[f]);
    }
    for (size_t f = 0; f < faces; f++)
        if (face[f].second == LAGOON_RIM)
            at = lagoon_put(record, at, LAGOON_OUTSIDE_BITS, outsides[f]);
    return at;
}

/* The step record without releases, kind 3 or 7; record has lagoon_step_bytes(width, faces, rim faces) bytes. outsides has an entry for
 * each face. */
static inline size_t lagoon_put_step(uint8_t *record, enum lagoon_width width, size_t faces, const struct lagoon_face *face,
                                     const int32_t *fluxes, const uint32_t *outsides)
{
    return lagoon_pad(record, lagoon_put_water(record, width, LAGOON_STEP, faces, face, fluxes, outsides));
}

/* The step record with a release for each cell, kind 4 or 8; record has lagoon_outfalls_bytes(width, cells, faces, rim faces) bytes. */
static inline size_t lagoon_put_outfalls(uint8_t *record, enum lagoon_width width, size_t cells, const uint64_t *releases, size_t faces,
                                         const struct lagoon_face *face, const int32_t *fluxes, const uint32_t *outsides)
{
    size_t at = lagoon_put_water(record, width, LAGOON_OUTFALLS, faces, face, fluxes, outsides);
    return lagoon_pad(record, lagoon_put_masses(record, at, width, cells, releases));
}

/* The width of a record of any kind, by that kind. A mesh record's is that of the records after it. */
static inline enum lagoon_width lagoon_width_of(const uint8_t *record)
{
    return lagoon_get(record, 0, LAGOON_KIND_BITS) < LAGOON_WIDE_MESH ? LAGOON_NARROW : LAGOON_WIDE;
}

/* Whether a record is of a kind, told as the narrow records have it, in the width given. */
static inline int lagoon_is(const uint8_t *record, enum lagoon_width width, enum lagoon_kind narrow)
{
    return lagoon_get(record, 0, LAGOON_KIND_BITS) == (uint64_t)lagoon_kind_in(width, narrow);
}

/* What an accepted mesh record holds. */
static inline size_t lagoon_cells(const uint8_t *mesh)
{
    return (size_t)lagoon_get(mesh, LAGOON_KIND_BITS, LAGOON_CELLS_BITS);
}

static inline size_t lagoon_faces(const uint8_t *mesh)
{
    return (size_t)lagoon_get(mesh, LAGOON_KIND_BITS + LAGOON_CELLS_BITS, LAGOON_FACES_BITS);
}

static inline uint32_t lagoon_volume(const uint8_t *mesh, size_t cell)
{
    unsigned bits = lagoon_value_bits(lagoon_width_of(mesh));
    return (uint32_t)lagoon_get(mesh, LAGOON_MESH_HEAD + bits * cell, bits);
}

static inline struct lagoon_face lagoon_face_of(const uint8_t *mesh, size_t face)
{
    enum lagoon_width width = lagoon_width_of(mesh);
    size_t first = LAGOON_MESH_HEAD + lagoon_value_bits(width) * lagoon_cells(mesh) + lagoon_face_bits(width) * face;
    size_t second = first + LAGOON_END_BITS, share = second + LAGOON_END_BITS, reach = share + LAGOON_SHARE_BITS;
    struct lagoon_face is = {(uint32_t)lagoon_get(mesh, first, LAGOON_END_BITS), (uint32_t)lagoon_get(mesh, second, LAGOON_END_BITS),
                             (uint32_t)lagoon_get(mesh, share, LAGOON_SHARE_BITS),
                             (uint32_t)lagoon_get(mesh, reach, lagoon_value_bits(width))};
    return is;
}

/* The mass of a cell in a field record. */
static inline uint64_t lagoon_mass(const uint8_t *field, size_t cell)
{
    unsigned bits = lagoon_mass_bits(lagoon_width_of(field));
    return lagoon_get(field, LAGOON_FIELD_HEAD + bits * cell, bits);
}

/* The flux of a face in a step record. */
static inline int32_t lagoon_flux(const uint8_t *step, size_t face)
{
    enum lagoon_width width = lagoon_width_of(step);
    size_t at = LAGOON_STEP_HEAD + lagoon_flux_bits(width) * face;
    int32_t size = (int32_t)lagoon_get(step, at + LAGOON_SIGN_BITS, lagoon_value_bits(width));
    return lagoon_get(step, at, LAGOON_SIGN_BITS) ? -size : size;
}

/* The bit at which the outside values of a step record begin, and that at which its releases do, by the mesh that it follows. */
static inline size_t lagoon_outsides_at(const uint8_t *mesh)
{
    return LAGOON_STEP_HEAD + lagoon_flux_bits(lagoon_width_of(mesh)) * lagoon_faces(mesh);
}

static inline size_t lagoon_releases_at(const uint8_t *mesh)
{
    size_t at = lagoon_outsides_at(mesh);
    for (size_t f = 0; f < lagoon_faces(mesh); f++)
        if (lagoon_face_of(mesh, f).second == LAGOON_RIM)
            at += LAGOON_OUTSIDE_BITS;
    return at;
}

/* The release into a cell, 0 in a step without releases; releases is the bit at which they begin. */
static inline uint64_t lagoon_release(const uint8_t *step, size_t releases, size_t cell)
{
    enum lagoon_width width = lagoon_width_of(step);
    if (!lagoon_is(step, width, LAGOON_OUTFALLS))
        return 0;
    return lagoon_get(step, releases + lagoon_mass_bits(width) * cell, lagoon_mass_bits(width));
}

#endif
