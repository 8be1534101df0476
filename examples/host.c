/* A small host on records: the channel session of document 01, and a third step that releases brine into the second cell. It steps a field in
 * a loop, prints each field with its concentrations, its total and the budget, then shows how a refusal is read. Last it takes a step on a
 * channel through a bay too large for narrow records, in wide ones. */
#include <inttypes.h>
#include <stdio.h>
#include <string.h>

#include "lagoon_records.h"

enum { CELLS = 3, FACES = 4, RIM_FACES = 2, STEPS = 3, OUTFALL = 3 }; /* the third step releases */

static const uint32_t volumes[CELLS] = {100, 100, 100};
static const struct lagoon_face faces[FACES] = {{0, LAGOON_RIM, 0, 0}, {0, 1, 128, 100}, {1, 2, 128, 100}, {2, LAGOON_RIM, 0, 0}};
static const uint64_t masses[CELLS] = {100000, 0, 0};
static const int32_t fluxes[FACES] = {-50, 50, 50, 50};
static const uint32_t outsides[FACES] = {1000, 0, 0, 0};
static const uint64_t releases[CELLS] = {0, 20000, 0};

/* What the library adds up of a field. */
static uint64_t total_of(const uint8_t *mesh, size_t mesh_length, const uint8_t *field, size_t field_length)
{
    uint64_t total = 0;
    lagoon_total(mesh, mesh_length, field, field_length, &total, 1);
    return total;
}

static void print_field(unsigned step, const uint8_t *mesh, size_t mesh_length, const uint8_t *field, size_t field_length)
{
    printf("step %u: masses", step);
    for (size_t cell = 0; cell < CELLS; cell++)
        printf(" %" PRIu64, lagoon_mass(field, cell));
    printf(", concentrations");
    for (size_t cell = 0; cell < CELLS; cell++)
        printf(" %" PRIu64, lagoon_mass(field, cell) / lagoon_volume(mesh, cell));
    printf(", total %" PRIu64 "\n", total_of(mesh, mesh_length, field, field_length));
}

static void print_refusal(const char *why, uint64_t answer)
{
    printf("%s: cause %" PRIu32 " (%s), place %" PRIu32 "\n", why, LAGOON_CAUSE(answer), lagoon_cause_text(LAGOON_CAUSE(answer)),
           LAGOON_PLACE(answer));
}

/* The middle cell has the largest volume, its faces the largest reach: the mesh asks for wide records, and field and steps follow it. */
static int step_large_bay(void)
{
    const uint32_t large[CELLS] = {40000, LAGOON_MAX_VOLUME, 40000};
    const struct lagoon_face wide_faces[FACES] = {{0, LAGOON_RIM, 0, 0}, {0, 1, 128, LAGOON_MAX_REACH}, {1, 2, 128, LAGOON_MAX_REACH},
                                                  {2, LAGOON_RIM, 0, 0}};
    const uint64_t salt[CELLS] = {1400000000, 65535065534, 40000000000};
    const int32_t tide[FACES] = {-20000, 20000, 20000, 20000};
    const uint32_t sea[FACES] = {35000, 0, 0, 0};
    const enum lagoon_width width = lagoon_width_for(CELLS, large, FACES, wide_faces);
    uint8_t mesh[LAGOON_WIDE_MESH_BYTES(CELLS, FACES)], water[LAGOON_WIDE_STEP_BYTES(FACES, RIM_FACES)];
    uint8_t field[LAGOON_WIDE_FIELD_BYTES(CELLS)], next[LAGOON_WIDE_FIELD_BYTES(CELLS)];
    size_t mesh_length = lagoon_put_mesh(mesh, width, CELLS, large, FACES, wide_faces);
    size_t field_length = lagoon_put_field(field, width, CELLS, salt);
    size_t water_length = lagoon_put_step(water, width, FACES, wide_faces, tide, sea);
    uint64_t answer = lagoon_step(mesh, mesh_length, field, field_length, water, water_length, next, sizeof next);
    if (answer != 0) {
        print_refusal("refused", answer);
        return 1;
    }
    printf("a large bay, in records of kinds %d, %d and %d\n", mesh[0] >> 4, field[0] >> 4, water[0] >> 4);
    print_field(0, mesh, mesh_length, field, field_length);
    print_field(1, mesh, mesh_length, next, field_length);
    return 0;
}

int main(void)
{
    uint8_t mesh[LAGOON_MESH_BYTES(CELLS, FACES)], water[LAGOON_STEP_BYTES(FACES, RIM_FACES)];
    uint8_t outfall[LAGOON_OUTFALLS_BYTES(CELLS, FACES, RIM_FACES)];
    uint8_t field[LAGOON_FIELD_BYTES(CELLS)], next[LAGOON_FIELD_BYTES(CELLS)];
    uint64_t answer, first, entered = 0, gone = 0, released = 0;

    lagoon_put_mesh(mesh, LAGOON_NARROW, CELLS, volumes, FACES, faces);
    lagoon_put_field(field, LAGOON_NARROW, CELLS, masses);
    lagoon_put_step(water, LAGOON_NARROW, FACES, faces, fluxes, outsides);
    lagoon_put_outfalls(outfall, LAGOON_NARROW, CELLS, releases, FACES, faces, fluxes, outsides);

    first = total_of(mesh, sizeof mesh, field, sizeof field);
    print_field(0, mesh, sizeof mesh, field, sizeof field);
    for (unsigned n = 1; n <= STEPS; n++) {
        const uint8_t *step = n == OUTFALL ? outfall : water;
        size_t length = n == OUTFALL ? sizeof outfall : sizeof water;
        uint64_t crossed[3];
        answer = lagoon_step(mesh, sizeof mesh, field, sizeof field, step, length, next, sizeof next);
        if (answer != 0) {
            print_refusal("refused", answer);
            return 1;
        }
        lagoon_crossing(mesh, sizeof mesh, field, sizeof field, step, length, crossed, 3);
        entered += crossed[0];
        gone += crossed[1];
        released += crossed[2];
        memcpy(field, next, sizeof field);
        print_field(n, mesh, sizeof mesh, field, sizeof field);
    }
    printf("budget: %" PRIu64 " + %" PRIu64 " + %" PRIu64 " - %" PRIu64 " = %" PRIu64 "\n", first, entered, released, gone,
           first + entered + released - gone);

    answer = lagoon_step(mesh, sizeof mesh, field, sizeof field, water, sizeof water, next, sizeof next - 1);
    print_refusal("a byte too little for the next field", answer);
    answer = lagoon_step(mesh, sizeof mesh, field, sizeof field - 1, water, sizeof water, next, sizeof next);
    print_refusal("a field record cut short", answer);
    lagoon_put(outfall, lagoon_releases_at(mesh), lagoon_mass_bits(LAGOON_NARROW), 100000000);
    answer = lagoon_step(mesh, sizeof mesh, field, sizeof field, outfall, sizeof outfall, next, sizeof next);
    print_refusal("too much brine for a cell", answer);
    field[2] = 0xff;
    answer = lagoon_step(mesh, sizeof mesh, field, sizeof field, water, sizeof water, next, sizeof next);
    print_refusal("too much salt in a cell", answer);
    return step_large_bay();
}
