/* A period of one port: what an accepted step moved outward over the rim is added to the totals, and at the period's end the port's total is
 * charged by bands. What is left of a cent is handed on to the next charge. */
#include <inttypes.h>
#include <stdio.h>

#include "lagoon.h"

enum { FACES = 3, BANDS = 3, PORT = 2, STEPS = 5 };

int main(void)
{
    const uint64_t seconds[FACES] = {LAGOON_RIM, 1, LAGOON_RIM}; /* a face at the sea, one between two cells, the port's at the rim */
    const int64_t moved[FACES] = {-600000, 550000, 500000};      /* by a step: in from the sea, out to the port */
    const uint64_t ends[BANDS] = {1000000, 2000000, LAGOON_LAST_END}, prices[BANDS] = {3, 2, 1};
    uint64_t totals[FACES] = {0, 0, 0}, bill[2] = {0, 0}, answer;

    for (int step = 0; step < STEPS; step++) {
        answer = lagoon_add(FACES, seconds, FACES, moved, FACES, totals, FACES);
        if (answer != 0)
            return 1;
    }
    printf("totals %" PRIu64 " %" PRIu64 " %" PRIu64 "\n", totals[0], totals[1], totals[PORT]);
    for (int period = 0; period < 2; period++) { /* the same total twice: the second charge begins with the first one's remainder */
        answer = lagoon_charge(totals[PORT], BANDS, ends, BANDS, prices, BANDS, bill[1], bill, 2);
        if (answer != 0)
            return 1;
        printf("%" PRIu64 " cents, and %" PRIu64 " millionths of one are handed on\n", bill[0], bill[1]);
    }
    answer = lagoon_charge(totals[PORT], BANDS, ends, BANDS - 1, prices, BANDS, bill[1], bill, 2);
    printf("a band without an end: cause %" PRIu32 " (%s), place %" PRIu32 "\n", LAGOON_CAUSE(answer), lagoon_cause_text(LAGOON_CAUSE(answer)),
           LAGOON_PLACE(answer));
    return 0;
}
