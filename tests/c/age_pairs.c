/* Fresh stores and ages on pages that can tear, against what document 02 says of them, written down here once more: random
 * stores of pairs, with statuses, stamps and commit pages that are right in many ways and wrong in many. */

#include "nekahuiro_pairs.h"

#include <stdio.h>
#include <string.h>

enum { PAGES = 1 + 2 * NEKAHUIRO_RECORDS, PAGE = NEKAHUIRO_PAGE_BYTES, ROUNDS = 200000 };

static uint64_t seed = 2026;

static uint32_t any(uint32_t bound)
{
    seed ^= seed << 13;
    seed ^= seed >> 7;
    seed ^= seed << 17;
    return (uint32_t)(seed >> 20) % bound;
}

static uint8_t store[NEKAHUIRO_PAIRS_STORE_BYTES], before[NEKAHUIRO_PAIRS_STORE_BYTES];

static uint8_t *copy(uint32_t page, uint32_t which)
{
    return store + page * NEKAHUIRO_PAIRS_PAIR_BYTES + which * NEKAHUIRO_PAIRS_COPY_BYTES;
}

/* The page that its first good copy has, or none. */
static const uint8_t *shown(uint32_t page)
{
    for (uint32_t which = 0; which < 2; which++)
        if (copy(page, which)[0] == 1)
            return copy(page, which) + 1;
    return NULL;
}

/* The map of a commit page, empty or committed, or -1. */
static long map_of(const uint8_t *page)
{
    long map = page[1] << 8 | page[2], ones = 0;

    for (int r = 0; r < NEKAHUIRO_RECORDS; r++)
        ones += map >> r & 1;
    for (int i = 4; i < PAGE; i++)
        if (page[i] != 0)
            return -1;
    return page[0] == (map == 0 ? 0x10 : 0x15) && page[3] == ones << 3 ? map : -1;
}

static int due(uint32_t record, uint32_t clock, uint32_t limit, int64_t *age)
{
    const uint8_t *page;
    long map;

    if (record >= NEKAHUIRO_RECORDS)
        return 23;
    for (uint32_t n = 0; n < PAGES; n++)
        if (shown(n) == NULL)
            return 4;
    map = map_of(shown(0));
    if (map < 0)
        return 4;
    page = shown(map >> (15 - record) & 1 ? 1 + record : 17 + record);
    *age = (int64_t)clock - ((int64_t)page[0] << 24 | page[1] << 16 | page[2] << 8 | page[3]);
    return *age < 0 ? 1 : *age <= limit ? 0 : 2;
}

static void commit_page(uint8_t *page)
{
    uint32_t map = any(3) ? any(65536) & any(65536) : 0, ones = 0;

    for (int r = 0; r < NEKAHUIRO_RECORDS; r++)
        ones += map >> r & 1;
    memset(page, 0, PAGE);
    page[0] = map ? 0x15 : 0x10;
    page[1] = (uint8_t)(map >> 8);
    page[2] = (uint8_t)map;
    page[3] = (uint8_t)(ones << 3);
    if (any(8) == 0)
        page[any(any(2) ? 5 : PAGE)] ^= (uint8_t)(1 << any(8));
}

int main(void)
{
    unsigned answers[24] = {0};

    for (long round = 0; round < ROUNDS; round++) {
        int64_t age = 77, expected = 77;
        uint32_t record = any(18), clock = any(2000), limit = any(1000);

        if (nekahuiro_fresh_pairs(store, sizeof store) != 0)
            return puts("a fresh store is refused"), 1;
        for (uint32_t n = 0; n < PAGES; n++)
            for (uint32_t which = 0; which < 2; which++) {
                uint8_t *page = copy(n, which) + 1;
                if (copy(n, which)[0] != 1 || page[0] != (n == 0 ? 0x10 : 0) || memcmp(page + 1, page + 2, PAGE - 2) != 0 || page[1] != 0)
                    return printf("copy %u of page %u isn't that of a fresh store\n", which, n), 1;
                if (n == 0)
                    commit_page(page);
                else {
                    page[2] = (uint8_t)any(8);
                    page[3] = (uint8_t)any(256);
                }
            }
        for (uint32_t torn = any(12); torn > 0; torn--)
            copy(any(PAGES), any(2))[0] = (uint8_t)(any(2) ? 0 : any(256));
        memcpy(before, store, sizeof store);
        int number = nekahuiro_age_pairs(store, sizeof store, (uint8_t)record, clock, limit, &age);
        int right = due(record, clock, limit, &expected);
        if (number != right || age != expected || memcmp(before, store, sizeof store) != 0)
            return printf("round %ld: %d and %lld, and %d and %lld are due\n", round, number, (long long)age, right, (long long)expected), 1;
        answers[number]++;
    }
    for (size_t size = 0; size <= 2 * sizeof store; size++) {
        int64_t age = 77;
        static uint8_t room[2 * sizeof store];
        int right = size == sizeof store;
        if ((nekahuiro_fresh_pairs(room, size) == 0) != right || (nekahuiro_age_pairs(room, size, 0, 0, 0, &age) == 22) == right)
            return printf("a store of %lu bytes\n", (unsigned long)size), 1;
    }
    printf("ages on pages that tear: %u live, %u ahead, %u stale, %u refused with 4, %u with 23\n", answers[0], answers[1], answers[2], answers[4], answers[23]);
    return 0;
}
