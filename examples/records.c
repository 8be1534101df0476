/* Calls on records besides the step (host.c): the channel's first step tried before it is taken, its plain step beside the corrected
 * one, the pages of the field that it leaves, a claim judged, and the lagoon cut in two. */
#include <inttypes.h>
#include <stdio.h>

#include "lagoon_records.h"

enum { CELLS = 3, FACES = 4 };

static const uint8_t mesh[] = {0x10, 0x03, 0x00, 0x20, 0x06, 0x40, 0x64, 0x06, 0x40, 0x00, 0xff, 0xf0, 0x00, 0x00, 0x00, 0x00,
                               0x01, 0x80, 0x06, 0x40, 0x01, 0x00, 0x28, 0x00, 0x64, 0x00, 0x2f, 0xff, 0x00, 0x00, 0x00};
static const uint8_t field[] = {0x20, 0x03, 0x00, 0x01, 0x86, 0xa0, 0x00, 0x00, 0x00, 0x00, 0x00, 0x00, 0x00, 0x00};
static const uint8_t step[] = {0x30, 0x02, 0x00, 0x00, 0x81, 0x90, 0x0c, 0x80, 0x64, 0x03, 0x20, 0x03, 0xe8, 0x00, 0x00, 0x00};

static int refused(const char *what, uint64_t answer)
{
    if (answer != 0)
        printf("%s: cause %" PRIu32 " (%s), place %" PRIu32 "\n", what, LAGOON_CAUSE(answer), lagoon_cause_text(LAGOON_CAUSE(answer)),
               LAGOON_PLACE(answer));
    return answer != 0;
}

static void print_masses(const char *what, const uint8_t *record)
{
    printf("%s: masses", what);
    for (size_t cell = 0; cell < CELLS; cell++)
        printf(" %" PRIu64, lagoon_mass(record, cell));
    printf("\n");
}

static void judge(const char *what, int64_t over_the_sill)
{
    const int64_t claim[FACES] = {-50000, over_the_sill, 0, 0};
    uint64_t crossed[3];
    uint8_t next[sizeof field];
    if (refused(what, lagoon_judge(mesh, sizeof mesh, field, sizeof field, step, sizeof step, claim, FACES, next, sizeof next, crossed, 3)))
        return;
    print_masses(what, next);
    printf("  in %" PRIu64 ", out %" PRIu64 ", released %" PRIu64 "\n", crossed[0], crossed[1], crossed[2]);
}

/* The page for the binder of a field record, and for the public without its first cell. */
static void print_pages(const uint8_t *record, size_t length)
{
    const uint64_t marks[CELLS] = {1, 0, 0};
    uint8_t page[LAGOON_MOST_PAGE_BYTES];
    uint64_t bytes = 0;
    if (!refused("page", lagoon_page(mesh, sizeof mesh, record, length, 0, page, sizeof page, &bytes, 1)))
        fwrite(page, 1, (size_t)bytes, stdout);
    if (!refused("public page", lagoon_public_page(mesh, sizeof mesh, record, length, 0, page, sizeof page, marks, CELLS, &bytes, 1)))
        fwrite(page, 1, (size_t)bytes, stdout);
}

/* The channel without its last cell, and that cell alone: each part's plain step gives the masses that the whole's gives there. */
static void cut(void)
{
    const uint64_t labels[CELLS] = {0, 0, 1};
    uint8_t meshes[2][sizeof mesh], fields[2][sizeof field], steps[2][LAGOON_STEP_BYTES(FACES, FACES)], next[sizeof field];
    uint64_t bytes[6];
    if (refused("cut", lagoon_cut(mesh, sizeof mesh, field, sizeof field, step, sizeof step, labels, CELLS, meshes[0], sizeof meshes[0], fields[0],
                                  sizeof fields[0], steps[0], sizeof steps[0], meshes[1], sizeof meshes[1], fields[1], sizeof fields[1], steps[1],
                                  sizeof steps[1], bytes, 6)))
        return;
    for (size_t part = 0; part < 2; part++) {
        const uint64_t *taken = bytes + 3 * part;
        printf("part %zu: records of %" PRIu64 ", %" PRIu64 " and %" PRIu64 " bytes\n", part, taken[0], taken[1], taken[2]);
        if (refused("plain", lagoon_plain_step(meshes[part], (size_t)taken[0], fields[part], (size_t)taken[1], steps[part], (size_t)taken[2], next,
                                               sizeof next)))
            return;
        printf("  plain: masses");
        for (size_t cell = 0; cell < (taken[1] - 2) / 4; cell++)
            printf(" %" PRIu64, lagoon_mass(next, cell));
        printf("\n");
    }
}

int main(void)
{
    uint8_t next[sizeof field];
    if (refused("the step", lagoon_check(mesh, sizeof mesh, field, sizeof field, step, sizeof step)))
        return 1;
    if (!refused("plain", lagoon_plain_step(mesh, sizeof mesh, field, sizeof field, step, sizeof step, next, sizeof next)))
        print_masses("plain", next);
    if (!refused("corrected", lagoon_step(mesh, sizeof mesh, field, sizeof field, step, sizeof step, next, sizeof next)))
        print_masses("corrected", next);
    print_pages(next, sizeof next);
    judge("a claim between them", 49950);
    judge("a claim that leaves too much", 49900);
    cut();
    return 0;
}
