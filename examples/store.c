/* Fields kept by name in a table of the host's: a morning's field is kept, the field changes, and the morning comes back exactly. */
#include <inttypes.h>
#include <stdio.h>

#include "lagoon.h"

enum { CELLS = 3, FIELDS = 2, MORNING = 7, NOON = 8 };

static void print_refusal(const char *why, uint64_t answer)
{
    printf("%s: cause %" PRIu32 " (%s), place %" PRIu32 "\n", why, LAGOON_CAUSE(answer), lagoon_cause_text(LAGOON_CAUSE(answer)),
           LAGOON_PLACE(answer));
}

int main(void)
{
    const uint64_t volumes[CELLS] = {100, 100, 100};
    uint64_t masses[CELLS] = {100000, 0, 0}, store[LAGOON_STORE_ENTRIES(CELLS, FIELDS)] = {0}; /* a first entry of 0 is an empty store */
    const size_t room = LAGOON_STORE_ENTRIES(CELLS, FIELDS);

    if (lagoon_keep(CELLS, volumes, CELLS, masses, CELLS, store, room, MORNING) != 0)
        return 1;
    masses[0] = 100099;
    masses[1] = 49901;
    if (lagoon_keep(CELLS, volumes, CELLS, masses, CELLS, store, room, NOON) != 0)
        return 1;
    print_refusal("a third field", lagoon_keep(CELLS, volumes, CELLS, masses, CELLS, store, room, 9));
    if (lagoon_give_back(CELLS, volumes, CELLS, masses, CELLS, store, room, MORNING) != 0)
        return 1;
    printf("the morning: %" PRIu64 " %" PRIu64 " %" PRIu64 "\n", masses[0], masses[1], masses[2]);
    if (lagoon_drop(CELLS, store, room, MORNING) != 0)
        return 1;
    print_refusal("the morning again", lagoon_give_back(CELLS, volumes, CELLS, masses, CELLS, store, room, MORNING));
    printf("%" PRIu64 " field kept, under %" PRIu64 "\n", store[0], store[1]);
    return 0;
}
