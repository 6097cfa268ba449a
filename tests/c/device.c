/* include/nekahuiro_device.h on a medium in memory that fails at every page write: commits, prepares, decisions,
 * recoveries and laying down, each cut after every number of page writes, with recoveries cut after every
 * number of theirs. A page write that fails may have been made all the same, so each is tried both ways.
 * Also shown to fail here: a commit in one call, and then the pages that differ, in page order.
 * The exit status is 0 only if all is as it should be. C99 and C++. */

#include "nekahuiro_device.h"

#include <stdio.h>
#include <stdlib.h>

#define PAGES (NEKAHUIRO_STORE_BYTES / NEKAHUIRO_PAGE_BYTES)

static nekahuiro_device device;
static uint8_t medium[NEKAHUIRO_STORE_BYTES];
static long budget;  /* page writes until one fails; below 0 none does */
static int made_yet; /* whether the one that fails is made */
static long cases = 0, failures = 0;

static int program(void *context, uint8_t page, const uint8_t *bytes)
{
    int fails = budget == 0;

    if (context != medium || page >= PAGES)
        exit(2);
    if (!fails || made_yet)
        memcpy(medium + page * NEKAHUIRO_PAGE_BYTES, bytes, NEKAHUIRO_PAGE_BYTES);
    if (budget > 0)
        budget--;
    return fails;
}

static void check(const char *what, long found, long due)
{
    cases++;
    if (found == due)
        return;
    printf("%s: %ld, and %ld is due\n", what, found, due);
    failures++;
}

static uint8_t play(uint32_t word)
{
    nekahuiro_answer answer = nekahuiro_device_play(&device, word);

    check("an event that has to be done", answer.number, NEKAHUIRO_DONE);
    return answer.value;
}

static nekahuiro_answer start(long writes)
{
    budget = writes;
    return nekahuiro_device_start(&device, program, medium, medium);
}

/* Children of one transaction write these records whole; then the last word is due, of that transaction. */
static uint8_t change(uint32_t records, uint8_t value)
{
    uint8_t top = play(nekahuiro_word_begin(NEKAHUIRO_NO_PARENT)), page[NEKAHUIRO_PAGE_BYTES];

    for (uint32_t record = 0; record < records; record++) {
        uint8_t child = play(nekahuiro_word_begin(top));

        memset(page, value + (int)record, sizeof page);
        check("put", nekahuiro_device_put(&device, child, record, page).number, NEKAHUIRO_DONE);
        play(nekahuiro_word_commit(child));
    }
    return top;
}

/* Which change all the records are of: 1 or 2 by their bytes; 0 for a mixture. */
static int seen(uint32_t records)
{
    uint8_t top = play(nekahuiro_word_begin(NEKAHUIRO_NO_PARENT)), page[NEKAHUIRO_PAGE_BYTES] = {0};
    int all = 0;

    for (uint32_t record = 0; record < records; record++) {
        int one;

        check("get", nekahuiro_device_get(&device, top, record, page).number, NEKAHUIRO_DONE);
        one = page[0] == 64 + record ? 1 : page[0] == 128 + record ? 2 : 0;
        for (int i = 1; i < NEKAHUIRO_PAGE_BYTES; i++)
            if (page[i] != page[0])
                one = 0;
        all = record == 0 || all == one ? one : 0;
    }
    play(nekahuiro_word_abort(top, NEKAHUIRO_NO_REPORT));
    return all;
}

/* Recovers with a failure after every number of page writes, twice one after the other, then whole; each time the
 * records are of the same change. */
static void recover_everywhere(uint32_t records, int due)
{
    uint8_t first[NEKAHUIRO_STORE_BYTES], second[NEKAHUIRO_STORE_BYTES];
    int whole = 0;

    memcpy(first, medium, sizeof first);
    for (long one = 0; !whole && one <= PAGES; one++) {
        int again = 0;

        memcpy(medium, first, sizeof first);
        whole = start(one).number == NEKAHUIRO_DONE;
        memcpy(second, medium, sizeof second);
        for (long other = 0; !again && other <= PAGES; other++) {
            memcpy(medium, second, sizeof second);
            again = start(other).number == NEKAHUIRO_DONE;
            check("the last recovery", start(-1).number, NEKAHUIRO_DONE);
            check("the records are of one change", seen(records), due);
        }
        check("the second recovery ends", again, 1);
    }
    check("the first recovery ends", whole, 1);
    memcpy(medium, first, sizeof first);
}

/* A used medium: the records are of change 1, or of change 1 with change 2 prepared. */
static void used(uint32_t records, int prepared)
{
    budget = -1;
    check("lay down", nekahuiro_device_lay(&device, program, medium).number, NEKAHUIRO_DONE);
    check("page writes of a commit", play(nekahuiro_word_commit(change(records, 64))), 2 * (long)records + 2);
    if (prepared)
        check("page writes of a prepare", play(nekahuiro_word_prepare(change(records, 128), 7)), (long)records + 1);
}

/* One event that makes `due` page writes, cut after each; from `survives` of them on its change is there. */
static void cut_everywhere(const char *what, uint32_t kind, uint32_t records, long due, long survives)
{
    for (long cut = 0; cut <= due; cut++) {
        int decides = kind == NEKAHUIRO_DECIDE, whole = cut == due;
        long made = whole ? cut : cut + made_yet;
        nekahuiro_answer answer;
        uint32_t word;

        used(records, decides);
        check(what, start(-1).number, NEKAHUIRO_DONE);
        if (decides)
            word = nekahuiro_word_decide(survives <= due ? NEKAHUIRO_DECIDE_COMMIT : NEKAHUIRO_DECIDE_ABORT, 7);
        else if (kind == NEKAHUIRO_PREPARE)
            word = nekahuiro_word_prepare(change(records, 128), 7);
        else
            word = nekahuiro_word_commit(change(records, 128));
        budget = cut;
        answer = nekahuiro_device_play(&device, word);
        check(what, answer.number, whole ? NEKAHUIRO_DONE : NEKAHUIRO_MEDIUM_FAILED);
        check("page writes made", answer.value, cut);
        check("a device that failed", device.failed, !whole);
        budget = -1;
        if (!whole)
            check("takes nothing", nekahuiro_device_play(&device, nekahuiro_word_recover()).number, NEKAHUIRO_MEDIUM_FAILED);
        /* While change 2 is prepared nobody can lock the records to look at them. */
        if (medium[0] == 0x13) {
            check("recover over a prepared page", start(-1).value, 0);
            play(nekahuiro_word_decide(NEKAHUIRO_DECIDE_ABORT, 7));
        }
        recover_everywhere(records, made >= survives ? 2 : 1);
    }
}

/* Laying down over a used medium, cut after each page write: as it was, or refused, or fresh; and then mended. */
static void lay_everywhere(void)
{
    uint8_t before[NEKAHUIRO_STORE_BYTES], fresh[NEKAHUIRO_STORE_BYTES];

    used(3, 0);
    memcpy(before, medium, sizeof before);
    nekahuiro_fresh(fresh, sizeof fresh);
    for (long cut = 0; cut <= PAGES + 1; cut++) {
        long made = cut > PAGES ? cut : cut + made_yet;
        nekahuiro_answer answer;

        memcpy(medium, before, sizeof before);
        budget = cut;
        answer = nekahuiro_device_lay(&device, program, medium);
        check("laying down", answer.number, cut > PAGES ? NEKAHUIRO_DONE : NEKAHUIRO_MEDIUM_FAILED);
        if (cut <= PAGES)
            check("page writes of laying down", answer.value, cut);
        answer = start(-1);
        check("a start after it", answer.number, made == 0 || made > PAGES ? NEKAHUIRO_DONE : NEKAHUIRO_DAMAGED);
        if (made == 0)
            check("as it was", memcmp(medium, before, sizeof before), 0);
        if (made > PAGES)
            check("fresh", memcmp(medium, fresh, sizeof fresh), 0);
        check("laid down again", nekahuiro_device_lay(&device, program, medium).number, NEKAHUIRO_DONE);
        check("fresh again", memcmp(medium, fresh, sizeof fresh), 0);
    }
}

/* The first thing that one would write, and wrong: one call, and then the pages that differ, in page order. */
static long mixtures_in_page_order(void)
{
    uint8_t before[NEKAHUIRO_STORE_BYTES], after[NEKAHUIRO_STORE_BYTES];
    long mixtures = 0;

    for (long cut = 0; cut <= 6; cut++) {
        long left = cut;

        used(3, 0);
        memcpy(before, medium, sizeof before);
        play(nekahuiro_word_commit(change(3, 128)));
        memcpy(after, medium, sizeof after);
        memcpy(medium, before, sizeof before);
        for (int at = 0; at < NEKAHUIRO_STORE_BYTES && left > 0; at += NEKAHUIRO_PAGE_BYTES)
            if (memcmp(medium + at, after + at, NEKAHUIRO_PAGE_BYTES)) {
                memcpy(medium + at, after + at, NEKAHUIRO_PAGE_BYTES);
                left--;
            }
        check("it comes up", start(-1).number, NEKAHUIRO_DONE);
        mixtures += seen(3) == 0;
    }
    return mixtures;
}

static void words(void)
{
    check("recover", nekahuiro_word_recover(), 0x80003F00);
    check("begin", nekahuiro_word_begin(NEKAHUIRO_NO_PARENT), 0x1F800000);
    check("lock", nekahuiro_word_lock(1, 3, NEKAHUIRO_WRITE_MODE), 0x20980000);
    check("read lock", nekahuiro_word_lock(1, 3, NEKAHUIRO_READ_MODE), 0x20980001);
    check("write", nekahuiro_word_write(1, 3, 2, 0xA5), 0x309880A5);
    check("read", nekahuiro_word_read(0, 3, 2), 0x40188000);
    check("commit", nekahuiro_word_commit(1), 0x50803F00);
    check("abort", nekahuiro_word_abort(1, NEKAHUIRO_NO_REPORT), 0x60800000);
    check("abort with a report", nekahuiro_word_abort(1, NEKAHUIRO_WITH_REPORT), 0x60800001);
    check("crash", nekahuiro_word_crash(), 0x70000000);
    check("prepare", nekahuiro_word_prepare(3, 7), 0x91803F07);
    check("decide commit", nekahuiro_word_decide(NEKAHUIRO_DECIDE_COMMIT, 255), 0xA0007FFF);
    check("decide abort", nekahuiro_word_decide(NEKAHUIRO_DECIDE_ABORT, 0), 0xA0003F00);
    check("query", nekahuiro_word_query(42), 0xB000002A);
    check("no such record", nekahuiro_word_lock(1, 16, 0), 0);
    check("no such transaction", nekahuiro_word_begin(32), 0);
    check("no such offset", nekahuiro_word_read(0, 0, 32), 0);
    check("no such value", nekahuiro_word_write(0, 0, 0, 256), 0);
}

static void refused(void)
{
    uint8_t page[NEKAHUIRO_PAGE_BYTES] = {9}, before[NEKAHUIRO_STORE_BYTES];
    uint8_t one, other;

    used(1, 0);
    memcpy(before, medium, sizeof before);
    budget = 0; /* any page write would fail */
    one = play(nekahuiro_word_begin(NEKAHUIRO_NO_PARENT));
    other = play(nekahuiro_word_begin(NEKAHUIRO_NO_PARENT));
    check("put", nekahuiro_device_put(&device, one, 5, page).number, NEKAHUIRO_DONE);
    check("put by another", nekahuiro_device_put(&device, other, 5, page).number, NEKAHUIRO_NOT_GRANTABLE);
    check("get by another", nekahuiro_device_get(&device, other, 5, page).number, NEKAHUIRO_NOT_GRANTABLE);
    check("the page is untouched", page[0], 9);
    check("a bad record", nekahuiro_device_put(&device, one, 16, page).number, NEKAHUIRO_BAD_EVENT);
    check("nobody's commit", nekahuiro_device_play(&device, nekahuiro_word_commit(9)).number, NEKAHUIRO_NOT_LIVE);
    check("a recover while up", nekahuiro_device_play(&device, nekahuiro_word_recover()).number, NEKAHUIRO_UP);
    check("a commit of nothing", nekahuiro_device_play(&device, nekahuiro_word_commit(other)).number, NEKAHUIRO_DONE);
    check("a crash", nekahuiro_device_play(&device, nekahuiro_word_crash()).number, NEKAHUIRO_DONE);
    check("a begin while down", nekahuiro_device_play(&device, nekahuiro_word_begin(NEKAHUIRO_NO_PARENT)).number, NEKAHUIRO_DOWN);
    check("the medium is as it was", memcmp(before, medium, sizeof before), 0);
    device.state.up = 2;
    check("no sound state", nekahuiro_device_play(&device, nekahuiro_word_recover()).number, NEKAHUIRO_BAD_STATE);
    /* A word with another count is played with 63. */
    check("started", start(-1).number, NEKAHUIRO_DONE);
    one = change(1, 128);
    check("a commit with count 0", play(nekahuiro_word(NEKAHUIRO_COMMIT, one, 0, 0, 0, 0)), 4);
}

int main(void)
{
    long mixtures;

    words();
    refused();
    for (made_yet = 0; made_yet < 2; made_yet++) {
        for (uint32_t n = 1; n <= 3; n++) {
            cut_everywhere("commit", NEKAHUIRO_COMMIT, n, 2 * (long)n + 2, (long)n + 1);
            cut_everywhere("prepare", NEKAHUIRO_PREPARE, n, (long)n + 1, 99);
            cut_everywhere("decide to commit", NEKAHUIRO_DECIDE, n, (long)n + 2, 1);
            cut_everywhere("decide to abort", NEKAHUIRO_DECIDE, n, 1, 99);
        }
        lay_everywhere();
    }
    mixtures = mixtures_in_page_order();
    check("pages that differ, in page order, are found to mix", mixtures > 0, 1);
    printf("%ld results of cuts at every page write, %ld wrong; in page order %ld of 7 cuts are a mixture\n", cases,
           failures, mixtures);
    return failures != 0;
}
