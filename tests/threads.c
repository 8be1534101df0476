/* Eight threads make calls of all groups at once, on the same records and tables and into room of their own: each finds what one alone found. */
#include <pthread.h>
#include <stdio.h>
#include <string.h>

#include "lagoon_records.h"

enum { CELLS = 3, FACES = 4, THREADS = 8, TIMES = 500 };

static const uint32_t volumes[CELLS] = {100, 100, 100};
static const uint64_t wide_volumes[CELLS] = {100, 100, 100}, masses[CELLS] = {100000, 0, 0}, marks[CELLS] = {0, 1, 0};
static const uint64_t seconds[FACES] = {LAGOON_RIM, 1, 2, LAGOON_RIM};
static const struct lagoon_face faces[FACES] = {{0, LAGOON_RIM, 0, 0}, {0, 1, 128, 100}, {1, 2, 128, 100}, {2, LAGOON_RIM, 0, 0}};
static const int32_t fluxes[FACES] = {-50, 50, 50, 50};
static const int64_t moved[FACES] = {-50000, 49901, 0, 700};
static const uint32_t outsides[FACES] = {1000, 0, 0, 0};
static uint8_t mesh[LAGOON_MESH_BYTES(CELLS, FACES)], field[LAGOON_FIELD_BYTES(CELLS)], step[LAGOON_STEP_BYTES(FACES, 2)];

/* What the calls find, one after another; no byte of it is left open. */
struct round {
    uint64_t answers[9], crossed[3], board[LAGOON_BOARD_NUMBERS], totals[FACES], share[1], length[1];
    uint8_t next[LAGOON_FIELD_BYTES(CELLS)], plain[LAGOON_FIELD_BYTES(CELLS)], page[LAGOON_MOST_PAGE_BYTES];
};

static void make_round(struct round *r)
{
    memset(r, 0, sizeof *r);
    r->answers[0] = lagoon_step(mesh, sizeof mesh, field, sizeof field, step, sizeof step, r->next, sizeof r->next);
    r->answers[1] = lagoon_plain_step(mesh, sizeof mesh, field, sizeof field, step, sizeof step, r->plain, sizeof r->plain);
    r->answers[2] = lagoon_check(mesh, sizeof mesh, field, sizeof field - 1, step, sizeof step); /* refused */
    r->answers[3] = lagoon_crossing(mesh, sizeof mesh, field, sizeof field, step, sizeof step, r->crossed, 3);
    r->answers[4] = lagoon_board(mesh, sizeof mesh, r->next, sizeof r->next, r->board, LAGOON_BOARD_NUMBERS);
    r->answers[5] = lagoon_table_public_page(CELLS, wide_volumes, CELLS, masses, CELLS, 0, r->page, sizeof r->page, marks, CELLS, r->length, 1);
    r->answers[6] = lagoon_add(FACES, seconds, FACES, moved, FACES, r->totals, FACES);
    r->answers[7] = lagoon_share(0, -2, 0, 2, -30, 0, 10, 0, r->share, 1);
    r->answers[8] = lagoon_version();
}

static void *repeat(void *alone)
{
    struct round r;
    for (int n = 0; n < TIMES; n++) {
        make_round(&r);
        if (memcmp(&r, alone, sizeof r) != 0)
            return alone;
    }
    return NULL;
}

int main(void)
{
    pthread_t thread[THREADS];
    static struct round alone;
    int differing = 0;

    lagoon_put_mesh(mesh, LAGOON_NARROW, CELLS, volumes, FACES, faces);
    lagoon_put_field(field, LAGOON_NARROW, CELLS, masses);
    lagoon_put_step(step, LAGOON_NARROW, FACES, faces, fluxes, outsides);
    make_round(&alone);
    if (alone.answers[0] != 0 || LAGOON_CAUSE(alone.answers[2]) != LAGOON_LENGTH || alone.totals[3] != 700 || alone.share[0] != 192)
        return 1;
    for (int i = 0; i < THREADS; i++)
        if (pthread_create(&thread[i], NULL, repeat, &alone) != 0)
            return 1;
    for (int i = 0; i < THREADS; i++) {
        void *found;
        if (pthread_join(thread[i], &found) != 0)
            return 1;
        differing += found != NULL;
    }
    if (differing != 0)
        printf("%d of %d threads found something else than one alone\n", differing, THREADS);
    return differing != 0;
}
