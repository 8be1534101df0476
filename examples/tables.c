/* Calls on tables: the channel of document 01, and the first step of it, corrected and plain. What the corrected step moved is judged as
 * another model's claim, and with a unit more; the channel is cut in two; and the mesh is written as a record and read back. No record is
 * needed to make a step. */
#include <inttypes.h>
#include <stdio.h>

#include "lagoon.h"

enum { CELLS = 3, FACES = 4 };

/* A lagoon with the water of one step, as it is lent. */
struct tables {
    uint64_t volumes[CELLS], firsts[FACES], seconds[FACES], shares[FACES], reaches[FACES], masses[CELLS];
    int64_t fluxes[FACES];
    uint64_t outsides[FACES], releases[CELLS];
};

static const struct tables channel = {{100, 100, 100}, {0, 0, 1, 2}, {LAGOON_RIM, 1, 2, LAGOON_RIM}, {0, 128, 128, 0}, {0, 100, 100, 0},
                                      {100000, 0, 0}, {-50, 50, 50, 50}, {1000, 0, 0, 0}, {0, 20000, 0}};

#define MESH(t) t.volumes, CELLS, t.firsts, FACES, t.seconds, FACES, t.shares, FACES, t.reaches, FACES
#define SALT_AND_WATER(t) t.masses, CELLS, t.fluxes, FACES, t.outsides, FACES
#define ALL(t) MESH(t), SALT_AND_WATER(t), t.releases, CELLS

static void print_answer(const char *what, uint64_t answer, const uint64_t *found, size_t many)
{
    printf("%s:", what);
    if (answer != 0)
        printf(" cause %" PRIu32 " (%s), place %" PRIu32, LAGOON_CAUSE(answer), lagoon_cause_text(LAGOON_CAUSE(answer)), LAGOON_PLACE(answer));
    for (size_t i = 0; i < many && answer == 0; i++)
        printf(" %" PRIu64, found[i]);
    printf("\n");
}

static void print_table(const char *what, const uint64_t *table, size_t entries)
{
    printf("  %s:", what);
    for (size_t i = 0; i < entries; i++)
        printf(" %" PRIu64, table[i]);
    printf("\n");
}

/* Each part's tables are as long as the whole's; of them its own counts are filled. */
static void cut_in_two(void)
{
    static const uint64_t labels[CELLS] = {0, 1, 1}, alike[CELLS] = {0, 0, 0};
    static struct tables part_0, part_1;
    uint64_t counts[4] = {0, 0, 0, 0};
    uint64_t answer = lagoon_table_cut(CELLS, FACES, ALL(channel), labels, CELLS, ALL(part_0), ALL(part_1), counts, 4);
    print_answer("cells and faces of both parts, cut after the first cell", answer, counts, 4);
    print_table("outside values of part 0", part_0.outsides, counts[1]);
    print_table("outside values of part 1", part_1.outsides, counts[3]);
    answer = lagoon_table_cut(CELLS, FACES, ALL(channel), alike, CELLS, ALL(part_0), ALL(part_1), counts, 4);
    print_answer("with every cell in part 0", answer, counts, 4);
}

static void write_and_read(void)
{
    uint8_t record[LAGOON_MESH_BYTES(CELLS, FACES)];
    static struct tables read;
    uint64_t length, found[3];
    uint64_t answer = lagoon_write_mesh(LAGOON_NARROW, CELLS, FACES, MESH(channel), record, sizeof record, &length, 1);
    print_answer("bytes of the mesh record", answer, &length, 1);
    answer = lagoon_read_mesh(record, sizeof record, MESH(read), found, 3);
    print_answer("cells, faces and width read back", answer, found, 3);
}

int main(void)
{
    uint64_t next[CELLS], work[LAGOON_WORK_ENTRIES(CELLS, FACES)], crossed[3], answer;
    int64_t moved[FACES];

    answer = lagoon_table_plain_step(CELLS, FACES, MESH(channel), SALT_AND_WATER(channel), next, CELLS, moved, FACES, work,
                                     LAGOON_WORK_ENTRIES(CELLS, FACES), channel.releases, CELLS, crossed, 3);
    print_answer("in, out and released by the plain step", answer, crossed, 3);
    print_table("masses", next, CELLS);
    answer = lagoon_table_step(CELLS, FACES, MESH(channel), SALT_AND_WATER(channel), next, CELLS, moved, FACES, work,
                               LAGOON_WORK_ENTRIES(CELLS, FACES), channel.releases, CELLS, crossed, 3);
    print_answer("in, out and released by the corrected step", answer, crossed, 3);
    print_table("masses", next, CELLS);

    answer = lagoon_table_judge(CELLS, FACES, MESH(channel), SALT_AND_WATER(channel), next, CELLS, moved, FACES, channel.releases, CELLS, crossed, 3);
    print_answer("the same as a claim", answer, crossed, 3);
    moved[0] -= 1;
    answer = lagoon_table_judge(CELLS, FACES, MESH(channel), SALT_AND_WATER(channel), next, CELLS, moved, FACES, channel.releases, CELLS, crossed, 3);
    print_answer("with a unit more from the sea", answer, crossed, 3);
    cut_in_two();
    write_and_read();
    return 0;
}
