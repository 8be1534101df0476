/* The stack that calls take, in bytes: each on a thread whose stack was filled with a pattern before it. A line for each: the step on
 * the channel's records; on the longest records of all, wide, of as many cells and faces as the limits allow, every face at the rim, a
 * release for each cell; and on two large cells between which the limiter's product takes more than 64 bits; then, on the longest records or
 * the largest tables, the other calls that have arrays of their own; last those that seek a refusal by 9 in arrays of its own. */
#define _GNU_SOURCE 1
#include <pthread.h>
#include <stdio.h>
#include <stdlib.h>
#include <string.h>

#include "lagoon_records.h"

enum { CELLS = LAGOON_MAX_CELLS, FACES = LAGOON_MAX_FACES, SIZE = 1 << 22, PATTERN = 0xa5 };

static uint8_t mesh[LAGOON_WIDE_MESH_BYTES(CELLS, FACES)], step[LAGOON_WIDE_OUTFALLS_BYTES(CELLS, FACES, FACES)];
static uint8_t field[LAGOON_WIDE_FIELD_BYTES(CELLS)], next[LAGOON_WIDE_FIELD_BYTES(CELLS)];
static size_t mesh_length, step_length, field_length;
static uint8_t *low;
static size_t below;

static void put_channel(void)
{
    const uint32_t volumes[] = {100, 100, 100}, outsides[] = {1000, 0, 0, 0};
    const uint64_t masses[] = {100000, 0, 0};
    const struct lagoon_face faces[] = {{0, LAGOON_RIM, 0, 0}, {0, 1, 128, 100}, {1, 2, 128, 100}, {2, LAGOON_RIM, 0, 0}};
    const int32_t fluxes[] = {-50, 50, 50, 50};

    mesh_length = lagoon_put_mesh(mesh, LAGOON_NARROW, 3, volumes, 4, faces);
    field_length = lagoon_put_field(field, LAGOON_NARROW, 3, masses);
    step_length = lagoon_put_step(step, LAGOON_NARROW, 4, faces, fluxes, outsides);
}

/* Each cell is as large as may be; through one of its faces all its water goes out, and through the other as much comes in, but to one cell
 * less where so much is wanting. */
static void put_longest(int32_t wanting)
{
    static uint32_t volumes[CELLS], outsides[FACES];
    static uint64_t masses[CELLS], releases[CELLS];
    static struct lagoon_face faces[FACES];
    static int32_t fluxes[FACES];

    for (uint32_t f = 0; f < FACES; f++) {
        struct lagoon_face rim = {f / 2, LAGOON_RIM, 0, 0};
        faces[f] = rim;
        fluxes[f] = f % 2 ? LAGOON_MAX_RIM_FLUX : -LAGOON_MAX_RIM_FLUX;
        outsides[f] = f % 2 ? 0 : LAGOON_MAX_CONCENTRATION - f;
    }
    for (size_t c = 0; c < CELLS; c++) {
        volumes[c] = LAGOON_MAX_VOLUME;
        releases[c] = LAGOON_MAX_VOLUME - 1;
        masses[c] = (uint64_t)LAGOON_MAX_VOLUME * LAGOON_MAX_CONCENTRATION;
    }
    fluxes[0] += wanting;
    mesh_length = lagoon_put_mesh(mesh, LAGOON_WIDE, CELLS, volumes, FACES, faces);
    field_length = lagoon_put_field(field, LAGOON_WIDE, CELLS, masses);
    step_length = lagoon_put_outfalls(step, LAGOON_WIDE, CELLS, releases, FACES, faces, fluxes, outsides);
}

/* Each face's correction is 16,371,093,750; the second cell may gain 32,535,065,534 in all, a little less than both bring. */
static void put_large_product(void)
{
    const uint32_t volumes[] = {LAGOON_MAX_VOLUME, LAGOON_MAX_VOLUME}, outsides[] = {0, 0};
    const uint64_t masses[] = {65535000000, 0};
    const struct lagoon_face faces[] = {{0, 1, 1, 33000}, {0, 1, 255, 33000}};
    const int32_t fluxes[] = {33000, -33000};

    mesh_length = lagoon_put_mesh(mesh, LAGOON_WIDE, 2, volumes, 2, faces);
    field_length = lagoon_put_field(field, LAGOON_WIDE, 2, masses);
    step_length = lagoon_put_step(step, LAGOON_WIDE, 2, faces, fluxes, outsides);
}

/* The largest tables, with the same water. */
enum { MOST_CELLS = LAGOON_TABLE_MAX_CELLS, MOST_FACES = LAGOON_TABLE_MAX_FACES };

static struct {
    uint64_t volumes[MOST_CELLS], firsts[MOST_FACES], seconds[MOST_FACES], shares[MOST_FACES], reaches[MOST_FACES], masses[MOST_CELLS],
        outsides[MOST_FACES], releases[MOST_CELLS];
    int64_t fluxes[MOST_FACES];
} whole, part_0, part_1;
static uint64_t labels[MOST_CELLS], next_masses[MOST_CELLS], work[LAGOON_WORK_ENTRIES(MOST_CELLS, MOST_FACES)];
static int64_t moved[MOST_FACES];
static struct {
    uint8_t mesh[sizeof mesh], field[sizeof field], step[sizeof step];
} records_0, records_1;
static uint64_t nothing[1]; /* lent for numbers that nobody asks for */

#define MESH(t) t.volumes, MOST_CELLS, t.firsts, MOST_FACES, t.seconds, MOST_FACES, t.shares, MOST_FACES, t.reaches, MOST_FACES
#define SALT_AND_WATER(t) t.masses, MOST_CELLS, t.fluxes, MOST_FACES, t.outsides, MOST_FACES
#define ALL(t) MESH(t), SALT_AND_WATER(t), t.releases, MOST_CELLS
#define RECORDS mesh, mesh_length, field, field_length, step, step_length

static void fill_tables(void)
{
    for (size_t f = 0; f < MOST_FACES; f++) {
        whole.firsts[f] = f / 2;
        whole.seconds[f] = LAGOON_RIM;
        whole.fluxes[f] = f % 2 ? LAGOON_MAX_RIM_FLUX : -LAGOON_MAX_RIM_FLUX;
        whole.outsides[f] = f % 2 ? 0 : LAGOON_MAX_CONCENTRATION - f;
    }
    for (size_t c = 0; c < MOST_CELLS; c++) {
        labels[c] = c % 2;
        whole.volumes[c] = LAGOON_MAX_VOLUME;
        whole.releases[c] = LAGOON_MAX_VOLUME - 1;
        whole.masses[c] = (uint64_t)LAGOON_MAX_VOLUME * LAGOON_MAX_CONCENTRATION;
    }
}

static uint64_t take_step(void)
{
    return lagoon_step(RECORDS, next, field_length);
}

static uint64_t take_plain_step(void)
{
    return lagoon_plain_step(RECORDS, next, field_length);
}

static uint64_t look_at_crossing(void)
{
    return lagoon_crossing(RECORDS, nothing, 0);
}

static uint64_t judge_records(void)
{
    return lagoon_judge(RECORDS, moved, FACES, next, field_length, nothing, 0);
}

static uint64_t take_table_step(void)
{
    return lagoon_table_step(MOST_CELLS, MOST_FACES, MESH(whole), SALT_AND_WATER(whole), next_masses, MOST_CELLS, moved, MOST_FACES, work,
                             LAGOON_WORK_ENTRIES(MOST_CELLS, MOST_FACES), whole.releases, MOST_CELLS, nothing, 0);
}

static uint64_t judge_tables(void)
{
    return lagoon_table_judge(MOST_CELLS, MOST_FACES, MESH(whole), SALT_AND_WATER(whole), next_masses, MOST_CELLS, moved, MOST_FACES, whole.releases,
                              MOST_CELLS, nothing, 0);
}

static uint64_t cut_tables(void)
{
    return lagoon_table_cut(MOST_CELLS, MOST_FACES, ALL(whole), labels, MOST_CELLS, ALL(part_0), ALL(part_1), nothing, 0);
}

#define ROOM(part) part.mesh, sizeof part.mesh, part.field, sizeof part.field, part.step, sizeof part.step

static uint64_t cut_records(void)
{
    return lagoon_cut(RECORDS, labels, CELLS, ROOM(records_0), ROOM(records_1), nothing, 0);
}

static uint64_t (*called)(void);
static unsigned cause;

static void *call(void *unused)
{
    uint8_t here;
    (void)unused;
    below = (size_t)(&here - low);
    if (called() != (uint64_t)cause << 32)
        exit(1);
    return NULL;
}

static void print_taken(const char *name, uint64_t (*taken)(void))
{
    pthread_attr_t attributes;
    pthread_t thread;
    size_t untouched = 0;

    called = taken;
    memset(low, PATTERN, SIZE);
    if (pthread_attr_init(&attributes) != 0 || pthread_attr_setstack(&attributes, low, SIZE) != 0
        || pthread_create(&thread, &attributes, call, NULL) != 0 || pthread_join(thread, NULL) != 0)
        exit(1);
    while (low[untouched] == PATTERN)
        untouched++;
    printf("%zu %s\n", below - untouched, name);
}

int main(void)
{
    if (posix_memalign((void **)&low, 4096, SIZE) != 0)
        return 1;
    put_channel();
    print_taken("lagoon_step: the channel", take_step);
    put_large_product();
    print_taken("lagoon_step: a large product", take_step);
    put_longest(0);
    print_taken("lagoon_step: the longest records", take_step);
    fill_tables();
    print_taken("lagoon_table_step", take_table_step); /* and what it moves is judged below */
    print_taken("lagoon_table_judge", judge_tables);
    print_taken("lagoon_table_cut", cut_tables);
    print_taken("lagoon_plain_step", take_plain_step);
    print_taken("lagoon_crossing", look_at_crossing);
    print_taken("lagoon_judge", judge_records);
    print_taken("lagoon_cut", cut_records);
    cause = LAGOON_BALANCE;
    put_longest(1);
    whole.fluxes[0]++;
    print_taken("lagoon_step, refused by 9", take_step);
    print_taken("lagoon_judge, refused by 9", judge_records);
    print_taken("lagoon_table_step, refused by 9", take_table_step);
    print_taken("lagoon_table_judge, refused by 9", judge_tables);
    return 0;
}
