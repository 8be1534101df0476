/* The share of a face from survey points, and how a host makes sure of the library that it runs with. */
#include <inttypes.h>
#include <stdio.h>

#include "lagoon.h"

int main(void)
{
    uint64_t share = 0, answer;

    if (lagoon_version() / 1000000 != LAGOON_VERSION_NUMBER / 1000000) {
        fprintf(stderr, "the library is not of the header's first number: its figures may differ\n");
        return 1;
    }
    printf("header and library are %s\n", lagoon_version() == LAGOON_VERSION_NUMBER ? "of one version" : "two versions with the same figures");
    /* a face 4 long, 30 from the first cell's centre and 10 from the second's: 192 of 256 */
    answer = lagoon_share(0, -2, 0, 2, -30, 0, 10, 0, &share, 1);
    if (answer != 0)
        return 1;
    printf("share %" PRIu64 "\n", share);
    answer = lagoon_share(0, -2, 0, 2, -30, 0, 2000000, 0, &share, 1);
    printf("a centre too far away: cause %" PRIu32 " (%s), place %" PRIu32 "\n", LAGOON_CAUSE(answer), lagoon_cause_text(LAGOON_CAUSE(answer)),
           LAGOON_PLACE(answer));
    return 0;
}
