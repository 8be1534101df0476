/* Makes the calls of include/lagoon.h on a stream of cases.
 *
 * Input, for each case: the number of the call in the header, 32 bits; then each argument, a number or a float as 64 bits, a table as the
 * number of its entries, 32 bits, and the entries. Output: the 64-bit answer, then the entries of each table that the call may change.
 * All little-endian. made.h is what `header.py --driver` prints.
 *
 * Each table ends at a page that nobody may touch. What lies before it, and a table that is only read, has to be as it was.
 */
#define _DEFAULT_SOURCE
#include <stdint.h>
#include <stdio.h>
#include <stdlib.h>
#include <string.h>
#include <sys/mman.h>
#include <unistd.h>

#include "../include/lagoon.h"

enum { MOST = 64, ROOM = 1 << 18, BEFORE = 64, PATTERN = 0xA5 };

struct lent {
    uint64_t number;
    void *at;
    size_t entries, bytes;
};

static void fail(const char *why)
{
    fprintf(stderr, "calls_driver: %s\n", why);
    exit(2);
}

#ifdef __GNUC__
__attribute__((unused))
#endif
static double as_double(uint64_t pattern)
{
    double value;
    memcpy(&value, &pattern, sizeof value);
    return value;
}

#include "made.h"

static uint8_t *room[MOST], *copy[MOST];

static void make_rooms(void)
{
    size_t page = (size_t)sysconf(_SC_PAGESIZE);
    for (int i = 0; i < MOST; i++) {
        room[i] = mmap(NULL, BEFORE + ROOM + 2 * page, PROT_READ | PROT_WRITE, MAP_PRIVATE | MAP_ANONYMOUS, -1, 0);
        copy[i] = malloc(ROOM);
        if (room[i] == MAP_FAILED || copy[i] == NULL)
            fail("no memory");
        room[i] += page + ROOM; /* where the untouched page begins */
        if (mprotect(room[i], page, PROT_NONE) != 0)
            fail("no page to guard with");
    }
}

static int is_table(char kind)
{
    return strchr("tsbTSB", kind) != NULL;
}

static int is_changed(char kind)
{
    return strchr("TSB", kind) != NULL;
}

static void take(void *into, size_t bytes)
{
    if (bytes != 0 && fread(into, 1, bytes, stdin) != bytes)
        fail("the case is cut short");
}

static void lend(struct lent *lent, int i, char kind)
{
    uint32_t entries;
    uint8_t *at;
    if (!is_table(kind)) {
        take(&lent->number, sizeof lent->number);
        return;
    }
    take(&entries, sizeof entries);
    lent->entries = entries;
    lent->bytes = entries * (size_t)(strchr("bB", kind) ? 1 : 8);
    if (lent->bytes > ROOM)
        fail("a table too long");
    at = room[i] - lent->bytes;
    memset(at - BEFORE, PATTERN, BEFORE);
    take(at, lent->bytes);
    if (!is_changed(kind))
        memcpy(copy[i], at, lent->bytes);
    lent->at = at;
}

/* After the call: nothing before the table is changed, and nothing of one that is only read. */
static void look(const struct lent *lent, int i, char kind)
{
    const uint8_t *at = lent->at;
    for (size_t n = 1; n <= BEFORE; n++)
        if (at[-(ptrdiff_t)n] != PATTERN)
            fail("bytes before a table were changed by the call");
    if (!is_changed(kind) && memcmp(at, copy[i], lent->bytes) != 0)
        fail("a table that is only read was changed by the call");
}

static void tell(const void *from, size_t bytes)
{
    if (bytes != 0 && fwrite(from, 1, bytes, stdout) != bytes)
        fail("cannot write");
}

int main(void)
{
    uint32_t call;
    static struct lent lent[MOST];

    make_rooms();
    while (fread(&call, 1, sizeof call, stdin) == sizeof call) {
        const char *kinds;
        uint64_t answer;
        if (call >= sizeof shape / sizeof *shape)
            fail("no such call");
        kinds = shape[call];
        for (int i = 0; kinds[i]; i++)
            lend(&lent[i], i, kinds[i]);
        answer = made(call, lent);
        tell(&answer, sizeof answer);
        for (int i = 0; kinds[i]; i++) {
            if (is_table(kinds[i]))
                look(&lent[i], i, kinds[i]);
            if (is_changed(kinds[i]))
                tell(lent[i].at, lent[i].bytes);
        }
        /* at once, so that after a crash the case it happened in is known */
        if (fflush(stdout) != 0)
            fail("cannot write");
    }
    return 0;
}
