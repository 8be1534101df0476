/* Calls lagoon_step on a stream of cases, as the board's host program would.
 *
 * Input, for each case: four 32-bit little-endian lengths (mesh, field, step, room),
 * then the bytes of the three records. Output: the 64-bit answer, little-endian,
 * then the room's bytes after the call.
 *
 * Every buffer has exactly its length, so that AddressSanitizer sees an overrun by the driver or
 * by a function that it watches. With -DGUARD_PAGES each buffer ends at a page that may not be
 * touched, which also catches an overrun by the library, which is not built with the sanitizer.
 */
#define _DEFAULT_SOURCE
#include <stdint.h>
#include <stdio.h>
#include <stdlib.h>
#include <string.h>

#include "../include/lagoon.h"

#define PATTERN 0xA5

static void fail(const char *why)
{
    fprintf(stderr, "call_driver: %s\n", why);
    exit(2);
}

#ifdef GUARD_PAGES
#include <sys/mman.h>
#include <unistd.h>

static size_t whole_pages(size_t len)
{
    size_t page = (size_t)sysconf(_SC_PAGESIZE);
    return (len / page + 1) * page;
}

static uint8_t *lend(size_t len)
{
    size_t page = (size_t)sysconf(_SC_PAGESIZE), size = whole_pages(len);
    uint8_t *base = mmap(NULL, size + page, PROT_READ | PROT_WRITE,
                         MAP_PRIVATE | MAP_ANONYMOUS, -1, 0);
    if (base == MAP_FAILED || mprotect(base + size, page, PROT_NONE) != 0)
        fail("no memory");
    return base + size - len;
}

static void give_back(uint8_t *bytes, size_t len)
{
    size_t page = (size_t)sysconf(_SC_PAGESIZE), size = whole_pages(len);
    munmap(bytes + len - size, size + page);
}
#else
static uint8_t *lend(size_t len)
{
    uint8_t *bytes = malloc(len);
    if (bytes == NULL && len != 0)
        fail("no memory");
    return bytes;
}

static void give_back(uint8_t *bytes, size_t len)
{
    (void)len;
    free(bytes);
}
#endif

static uint8_t *read_record(size_t len)
{
    uint8_t *bytes = lend(len);
    if (len != 0 && fread(bytes, 1, len, stdin) != len)
        fail("the case is cut short");
    return bytes;
}

static uint8_t *copy_of(const uint8_t *bytes, size_t len)
{
    uint8_t *copy = malloc(len + 1);
    if (copy == NULL)
        fail("no memory");
    if (len != 0)
        memcpy(copy, bytes, len);
    return copy;
}

int main(void)
{
    uint8_t head[16];
    size_t got;

    while ((got = fread(head, 1, sizeof head, stdin)) == sizeof head) {
        size_t len[4];
        uint8_t *record[3], *copy[3], *room, answer[8];
        uint64_t number;

        for (int i = 0; i < 4; i++)
            len[i] = (size_t)head[4 * i] | (size_t)head[4 * i + 1] << 8
                   | (size_t)head[4 * i + 2] << 16 | (size_t)head[4 * i + 3] << 24;
        for (int i = 0; i < 3; i++) {
            record[i] = read_record(len[i]);
            copy[i] = copy_of(record[i], len[i]);
        }
        room = lend(len[3]);
        if (len[3] != 0)
            memset(room, PATTERN, len[3]);

        number = lagoon_step(record[0], len[0], record[1], len[1],
                             record[2], len[2], room, len[3]);

        for (int i = 0; i < 3; i++) {
            if (len[i] != 0 && memcmp(record[i], copy[i], len[i]) != 0)
                fail("a record was changed by the call");
            free(copy[i]);
            give_back(record[i], len[i]);
        }
        for (int i = 0; i < 8; i++)
            answer[i] = (uint8_t)(number >> (8 * i));
        /* flushed at once, so that after a crash the case it happened in is known */
        if (fwrite(answer, 1, 8, stdout) != 8 || fwrite(room, 1, len[3], stdout) != len[3]
            || fflush(stdout) != 0)
            fail("cannot write");
        give_back(room, len[3]);
    }
    if (got != 0)
        fail("the head of a case is cut short");
    return 0;
}
