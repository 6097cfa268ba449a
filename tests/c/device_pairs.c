/* include/nekahuiro_device_pairs.h on a medium in memory that fails at every copy write: commits, recoveries with what
 * they mend, and laying down. The copy write at which the power goes isn't begun, or is left bad, or is made all the
 * same. The exit status is 0 only if all is as it should be. C99 and C++. */

#include "nekahuiro_device_pairs.h"

#include <stdio.h>
#include <stdlib.h>

#define PAGES (NEKAHUIRO_PAIRS_STORE_BYTES / NEKAHUIRO_PAIRS_PAIR_BYTES)

enum { NOT_BEGUN, LEFT_BAD, MADE, FATES };

static nekahuiro_device_pairs device;
static uint8_t medium[NEKAHUIRO_PAIRS_STORE_BYTES];
static long budget; /* copy writes until one fails; below 0 none does */
static int fate;    /* what becomes of the one that fails */
static long cases = 0, failures = 0;

static int program(void *context, uint8_t page, uint8_t copy, const uint8_t *bytes)
{
    uint8_t *at = medium + page * NEKAHUIRO_PAIRS_PAIR_BYTES + copy * NEKAHUIRO_PAIRS_COPY_BYTES;
    int fails = budget == 0;

    if (context != medium || page >= PAGES || copy > NEKAHUIRO_PAIRS_SECOND_COPY)
        exit(2);
    if (!fails || fate == MADE) {
        at[0] = NEKAHUIRO_PAIRS_GOOD;
        memcpy(at + 1, bytes, NEKAHUIRO_PAGE_BYTES);
    } else if (fate == LEFT_BAD) {
        at[0] = NEKAHUIRO_PAIRS_BAD;
        at[1] ^= 0x5A; /* whatever it holds has no say */
    }
    if (budget > 0)
        budget--;
    return fails;
}

static void check(const char *what, long found, long due)
{
    cases++;
    if (found == due)
        return;
    printf("%s: %ld, and %ld is due\n", what, found, due);
    failures++;
}

static uint8_t play(uint32_t word)
{
    nekahuiro_answer answer = nekahuiro_device_pairs_play(&device, word);

    check("an event that has to be done", answer.number, NEKAHUIRO_DONE);
    return answer.value;
}

static nekahuiro_answer start(long writes)
{
    budget = writes;
    return nekahuiro_device_pairs_start(&device, program, medium, medium);
}

/* One transaction writes these records whole, and is to be committed. */
static uint8_t change(uint32_t records, uint8_t value)
{
    uint8_t top = play(nekahuiro_word_begin(NEKAHUIRO_NO_PARENT)), page[NEKAHUIRO_PAGE_BYTES];

    for (uint32_t record = 0; record < records; record++) {
        memset(page, value + (int)record, sizeof page);
        check("put", nekahuiro_device_pairs_put(&device, top, record, page).number, NEKAHUIRO_DONE);
    }
    return top;
}

/* Which change all the records are of: 1 or 2 by their bytes; 0 for a mixture. */
static int seen(uint32_t records)
{
    uint8_t top = play(nekahuiro_word_begin(NEKAHUIRO_NO_PARENT)), page[NEKAHUIRO_PAGE_BYTES] = {0};
    int all = 0;

    for (uint32_t record = 0; record < records; record++) {
        int one;

        check("get", nekahuiro_device_pairs_get(&device, top, record, page).number, NEKAHUIRO_DONE);
        one = page[0] == 64 + record ? 1 : page[0] == 128 + record ? 2 : 0;
        for (int i = 1; i < NEKAHUIRO_PAGE_BYTES; i++)
            if (page[i] != page[0])
                one = 0;
        all = record == 0 || all == one ? one : 0;
    }
    play(nekahuiro_word_abort(top, NEKAHUIRO_NO_REPORT));
    return all;
}

/* Recovers with a failure after every number of copy writes, of what is mended too, and then whole; the records are of
 * the same change each time, and every copy is good and like its other. */
static void recover_everywhere(uint32_t records, int due)
{
    uint8_t before[NEKAHUIRO_PAIRS_STORE_BYTES];
    int whole = 0, left = fate;

    memcpy(before, medium, sizeof before);
    for (fate = 0; fate < FATES; fate++)
        for (long cut = 0, ends = 0; !ends && cut <= 2 * PAGES; cut++) {
            memcpy(medium, before, sizeof before);
            ends = start(cut).number == NEKAHUIRO_DONE;
            whole += (int)ends;
            check("the last recovery", start(-1).number, NEKAHUIRO_DONE);
            check("the records are of one change", seen(records), due);
            check("the copy is the medium", memcmp(medium, device.store, sizeof medium), 0);
            for (int page = 0; page < PAGES; page++)
                check("a page is whole", memcmp(medium + page * NEKAHUIRO_PAIRS_PAIR_BYTES,
                                                medium + page * NEKAHUIRO_PAIRS_PAIR_BYTES + NEKAHUIRO_PAIRS_COPY_BYTES,
                                                NEKAHUIRO_PAIRS_COPY_BYTES), 0);
        }
    check("each recovery ends", whole, FATES);
    fate = left;
}

/* A used medium: the records are of change 1. */
static void used(uint32_t records)
{
    budget = -1;
    check("lay down", nekahuiro_device_pairs_lay(&device, program, medium).number, NEKAHUIRO_DONE);
    check("page writes of a commit", play(nekahuiro_word_commit(change(records, 64))), 2 * (long)records + 2);
}

/* A commit, cut at each of its copy writes: its change is there from the first copy of the commit page on. */
static void commit_everywhere(uint32_t records)
{
    long due = 2 * (2 * (long)records + 2);

    for (long cut = 0; cut <= due; cut++) {
        int whole = cut == due;
        long made = whole ? cut : cut + (fate == MADE);
        nekahuiro_answer answer;
        uint8_t top;

        used(records);
        top = change(records, 128);
        budget = cut;
        answer = nekahuiro_device_pairs_play(&device, nekahuiro_word_commit(top));
        check("commit", answer.number, whole ? NEKAHUIRO_DONE : NEKAHUIRO_MEDIUM_FAILED);
        check("what a commit made", answer.value, whole ? due / 2 : cut);
        budget = -1;
        if (!whole)
            check("takes nothing", nekahuiro_device_pairs_play(&device, nekahuiro_word_recover()).number,
                  NEKAHUIRO_MEDIUM_FAILED);
        recover_everywhere(records, made > 2 * (long)records ? 2 : 1);
    }
}

/* Laying down over a used medium, cut at each copy write: it shows what it was, or is refused, or is fresh. */
static void lay_everywhere(void)
{
    uint8_t before[NEKAHUIRO_PAIRS_STORE_BYTES], fresh[NEKAHUIRO_PAIRS_STORE_BYTES];
    long writes = 2 * (PAGES + 1);

    used(3);
    memcpy(before, medium, sizeof before);
    nekahuiro_fresh_pairs(fresh, sizeof fresh);
    for (long cut = 0; cut < writes; cut++) {
        long made = cut + (fate == MADE);
        nekahuiro_answer answer;

        memcpy(medium, before, sizeof before);
        budget = cut;
        answer = nekahuiro_device_pairs_lay(&device, program, medium);
        check("laying down", answer.number, NEKAHUIRO_MEDIUM_FAILED);
        check("copy writes of laying down", answer.value, cut);
        answer = start(-1);
        check("a start after it", answer.number, made == 0 || made > writes - 2 ? NEKAHUIRO_DONE : NEKAHUIRO_DAMAGED);
        if (made == 0)
            check("what it was", seen(3), 1);
        check("laid down again", nekahuiro_device_pairs_lay(&device, program, medium).number, NEKAHUIRO_DONE);
        check("fresh", memcmp(medium, fresh, sizeof fresh), 0);
    }
}

static void refused(void)
{
    uint8_t before[NEKAHUIRO_PAIRS_STORE_BYTES], top;

    used(1);
    /* Page 5 is torn, and page 20 has no good copy. */
    medium[5 * NEKAHUIRO_PAIRS_PAIR_BYTES] = NEKAHUIRO_PAIRS_BAD;
    medium[20 * NEKAHUIRO_PAIRS_PAIR_BYTES] = 2;
    medium[20 * NEKAHUIRO_PAIRS_PAIR_BYTES + NEKAHUIRO_PAIRS_COPY_BYTES] = NEKAHUIRO_PAIRS_BAD;
    memcpy(before, medium, sizeof before);
    check("no good copy", start(0).number, NEKAHUIRO_DAMAGED);
    check("nothing is mended", memcmp(before, medium, sizeof before), 0);
    medium[20 * NEKAHUIRO_PAIRS_PAIR_BYTES] = NEKAHUIRO_PAIRS_GOOD;
    check("mended", start(-1).number, NEKAHUIRO_DONE);
    check("the copy is the medium", memcmp(medium, device.store, sizeof medium), 0);
    check("a recover while up", nekahuiro_device_pairs_play(&device, nekahuiro_word_recover()).number, NEKAHUIRO_UP);
    check("prepare", nekahuiro_device_pairs_play(&device, nekahuiro_word_prepare(0, 7)).number, NEKAHUIRO_BAD_EVENT);
    check("query", nekahuiro_device_pairs_play(&device, nekahuiro_word_query(7)).number, NEKAHUIRO_BAD_EVENT);
    /* A word with another count, and with a way to tear, is played uncut; a way that there isn't is refused. */
    top = change(1, 128);
    check("a value of 4", nekahuiro_device_pairs_play(&device, nekahuiro_word(NEKAHUIRO_COMMIT, top, 0, 0, 0, 4)).number,
          NEKAHUIRO_BAD_EVENT);
    check("count 0, torn", play(nekahuiro_word(NEKAHUIRO_COMMIT, top, 0, 0, 0, NEKAHUIRO_PAIRS_SECOND_BAD)), 4);
    medium[7 * NEKAHUIRO_PAIRS_PAIR_BYTES] = NEKAHUIRO_PAIRS_BAD;
    check("started", start(-1).number, NEKAHUIRO_DONE);
    play(nekahuiro_word_crash());
    medium[7 * NEKAHUIRO_PAIRS_PAIR_BYTES] = device.store[7 * NEKAHUIRO_PAIRS_PAIR_BYTES] = NEKAHUIRO_PAIRS_BAD;
    play(nekahuiro_word(NEKAHUIRO_RECOVER, 0, 0, 0, 0, NEKAHUIRO_PAIRS_FIRST_BAD));
    check("a torn recover mends too", memcmp(medium, device.store, sizeof medium), 0);
    device.state.up = 2;
    check("no sound state", nekahuiro_device_pairs_play(&device, nekahuiro_word_begin(NEKAHUIRO_NO_PARENT)).number,
          NEKAHUIRO_BAD_STATE);
}

int main(void)
{
    refused();
    for (fate = 0; fate < FATES; fate++) {
        commit_everywhere(1);
        commit_everywhere(3);
        lay_everywhere();
    }
    printf("%ld results of cuts before, within and behind every copy write, %ld wrong\n", cases, failures);
    return failures != 0;
}
