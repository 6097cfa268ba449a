/* A power cut in the middle of a commit, and what is left of it: fresh, run, recover, age.
 * Build at the root of the repository:
 *   cc -Wall -Wextra -Werror -Iinclude examples/c/power_cut.c target/staticlib/libnekahuiro.a -o power_cut
 * The exit status is 0 only if every result is the one that the header promises. */

#include "nekahuiro.h"

#include <stdio.h>
#include <string.h>

static int failures = 0;

/* Tells a sentence if it is true, and otherwise what was found. */
static void check(const char *sentence, long found, long due)
{
    if (found == due) {
        puts(sentence);
        return;
    }
    printf("NOT SO: %s (%ld, and %ld is due)\n", sentence, found, due);
    failures++;
}

/* Packs an event word. */
static void event(uint8_t word[NEKAHUIRO_EVENT_BYTES], uint32_t kind, uint32_t transaction,
                  uint32_t record, uint32_t offset, uint32_t count, uint32_t value)
{
    uint32_t bits = kind << 28 | transaction << 23 | record << 19 | offset << 14 | count << 8 | value;

    for (int i = 0; i < NEKAHUIRO_EVENT_BYTES; i++)
        word[i] = (uint8_t)(bits >> (24 - 8 * i));
}

static uint8_t store[NEKAHUIRO_STORE_BYTES];
static uint8_t work[NEKAHUIRO_WORK_BYTES];

/* A child stamps record 3 with minute 7 and commits to its parent; the power goes during the
 * parent's commit, after `count` page writes. */
static uint8_t stamp_record(uint32_t count, uint8_t answers[14])
{
    uint8_t list[7][NEKAHUIRO_EVENT_BYTES];

    event(list[0], NEKAHUIRO_RECOVER, 0, 0, 0, NEKAHUIRO_NO_CUT, 0);
    event(list[1], NEKAHUIRO_BEGIN, NEKAHUIRO_NO_PARENT, 0, 0, 0, 0); /* transaction 0 */
    event(list[2], NEKAHUIRO_BEGIN, 0, 0, 0, 0, 0);                   /* transaction 1, its child */
    event(list[3], NEKAHUIRO_LOCK, 1, 3, 0, 0, NEKAHUIRO_WRITE_MODE);
    event(list[4], NEKAHUIRO_WRITE, 1, 3, 3, 0, 7);
    event(list[5], NEKAHUIRO_COMMIT, 1, 0, 0, NEKAHUIRO_NO_CUT, 0);
    event(list[6], NEKAHUIRO_COMMIT, 0, 0, 0, count, 0);
    return nekahuiro_run(store, sizeof store, list[0], sizeof list, work, sizeof work, answers, 14);
}

static void lost_and_surviving(void)
{
    uint8_t answers[14];
    int64_t age = 99;

    check("a fresh store is laid down", nekahuiro_fresh(store, sizeof store), NEKAHUIRO_DONE);
    check("a run is played in which the power goes after 1 page write of the last commit", stamp_record(1, answers), NEKAHUIRO_DONE);
    check("  the commit is answered as cut", answers[12], NEKAHUIRO_CUT);
    check("  1 page write was made", answers[13], 1);
    check("  it is lost: the stamp of record 3 is still 0, and at minute 5 the record is live", nekahuiro_age(store, sizeof store, 3, 5, 10, &age),
          NEKAHUIRO_LIVE);
    check("  its age is 5 minutes", (long)age, 5);

    check("a run is played in which the power goes after 2 page writes of the last commit", stamp_record(2, answers), NEKAHUIRO_DONE);
    check("  the commit is answered as cut", answers[12], NEKAHUIRO_CUT);
    check("  it survives: the stamp of record 3 is 7, and at minute 5 the record is ahead", nekahuiro_age(store, sizeof store, 3, 5, 10, &age),
          NEKAHUIRO_AHEAD);
    check("  its age is -2 minutes", (long)age, -2);
}

static void recovered(void)
{
    uint8_t list[4][NEKAHUIRO_EVENT_BYTES], answers[8];

    event(list[0], NEKAHUIRO_RECOVER, 0, 0, 0, NEKAHUIRO_NO_CUT, 0);
    event(list[1], NEKAHUIRO_BEGIN, NEKAHUIRO_NO_PARENT, 0, 0, 0, 0);
    event(list[2], NEKAHUIRO_LOCK, 0, 3, 0, 0, NEKAHUIRO_READ_MODE);
    event(list[3], NEKAHUIRO_READ, 0, 3, 3, 0, 0);
    check("a run is played that recovers, and then reads the record",
          nekahuiro_run(store, sizeof store, list[0], sizeof list, work, sizeof work, answers, sizeof answers),
          NEKAHUIRO_DONE);
    check("  the recover made 2 page writes", answers[1], 2);
    check("  the byte read is 7", answers[7], 7);
    check("  page 0 is empty again", store[0], 0x10);
}

static void refused(void)
{
    uint8_t before[NEKAHUIRO_STORE_BYTES], answers[2] = {0xEE, 0xEE};
    const uint8_t list[3] = {0};
    int64_t age = 99;

    memcpy(before, store, sizeof store);
    check("a list of 3 bytes is refused", nekahuiro_run(store, sizeof store, list, 3, work, sizeof work, answers, 2),
          NEKAHUIRO_BAD_LIST);
    check("  the store is untouched", memcmp(before, store, sizeof store), 0);
    check("  the answers are untouched", answers[0], 0xEE);
    check("record 16 is refused", nekahuiro_age(store, sizeof store, 16, 5, 10, &age), NEKAHUIRO_BAD_RECORD);
    check("  the age is untouched", (long)age, 99);
}

int main(void)
{
    lost_and_surviving();
    recovered();
    refused();
    if (failures) {
        printf("%d results are wrong\n", failures);
        return 1;
    }
    puts("all results are right");
    return 0;
}
