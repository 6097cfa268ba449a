/* Both editions in one program: the records of a store of edition 1 are taken over into one of edition 2, in
 * one transaction, in whose commit the power goes.
 * Build at the root of the repository:
 *   cc -Wall -Wextra -Werror -Iinclude examples/c/edition2.c target/staticlib/libnekahuiro.a \
 *      target/staticlib/libnekahuiro_edition2.a -o edition2
 * The exit status is 0 only if every result is the one that the headers promise. */

#include "nekahuiro_edition2.h"

#include <stdio.h>
#include <string.h>

static int failures = 0;

/* Tells a sentence if it is true, and otherwise what was found. */
static void check(const char *sentence, long found, long due)
{
    if (found == due) {
        puts(sentence);
        return;
    }
    printf("NOT SO: %s (%ld, and %ld is due)\n", sentence, found, due);
    failures++;
}

static uint8_t old_store[NEKAHUIRO_STORE_BYTES], old_work[NEKAHUIRO_WORK_BYTES];
static uint8_t store[NEKAHUIRO_EDITION2_STORE_BYTES], work[NEKAHUIRO_EDITION2_WORK_BYTES];

/* Lists of both editions, with their answers. */
static uint8_t old_list[NEKAHUIRO_LIST_BYTES], list[NEKAHUIRO_EDITION2_LIST_BYTES];
static uint8_t old_answers[NEKAHUIRO_EVENTS * NEKAHUIRO_ANSWER_BYTES], answers[NEKAHUIRO_EVENTS * NEKAHUIRO_ANSWER_BYTES];
static size_t old_events = 0, events = 0;

/* Adds an event to edition 1's list, as a word of 4 bytes. */
static void old_event(uint32_t kind, uint32_t transaction, uint32_t record, uint32_t offset, uint32_t count, uint32_t value)
{
    uint32_t bits = kind << 28 | transaction << 23 | record << 19 | offset << 14 | count << 8 | value;

    for (int i = 0; i < NEKAHUIRO_EVENT_BYTES; i++)
        old_list[old_events * NEKAHUIRO_EVENT_BYTES + i] = (uint8_t)(bits >> (24 - 8 * i));
    old_events++;
}

/* Adds an event to edition 2's list, as a word of 8 bytes. */
static void event(uint64_t kind, uint64_t transaction, uint64_t record, uint64_t offset, uint64_t count, uint64_t value)
{
    uint64_t bits = kind << 60 | transaction << 55 | record << 49 | offset << 44 | count << 36 | value << 28;

    for (int i = 0; i < NEKAHUIRO_EDITION2_EVENT_BYTES; i++)
        list[events * NEKAHUIRO_EDITION2_EVENT_BYTES + i] = (uint8_t)(bits >> (56 - 8 * i));
    events++;
}

static uint8_t play_old(void)
{
    uint8_t number = nekahuiro_run(old_store, sizeof old_store, old_list, old_events * NEKAHUIRO_EVENT_BYTES, old_work,
                                   sizeof old_work, old_answers, sizeof old_answers);

    old_events = 0;
    return number;
}

/* Plays edition 2's list; `last` is the answer to its last event. */
static uint8_t play(const uint8_t **last)
{
    uint8_t number = nekahuiro_run_edition2(store, sizeof store, list, events * NEKAHUIRO_EDITION2_EVENT_BYTES, work,
                                            sizeof work, answers, sizeof answers);

    *last = answers + (events - 1) * NEKAHUIRO_ANSWER_BYTES;
    events = 0;
    return number;
}

/* Sixteen records, each with its own stamp: record r has minute r + 1. */
static void make_old(void)
{
    check("a fresh store of edition 1 is laid down", nekahuiro_fresh(old_store, sizeof old_store), NEKAHUIRO_DONE);
    old_event(NEKAHUIRO_RECOVER, 0, 0, 0, NEKAHUIRO_NO_CUT, 0);
    old_event(NEKAHUIRO_BEGIN, NEKAHUIRO_NO_PARENT, 0, 0, 0, 0);
    for (uint32_t r = 0; r < NEKAHUIRO_RECORDS; r++) {
        old_event(NEKAHUIRO_LOCK, 0, r, 0, 0, NEKAHUIRO_WRITE_MODE);
        old_event(NEKAHUIRO_WRITE, 0, r, 3, 0, r + 1);
    }
    old_event(NEKAHUIRO_COMMIT, 0, 0, 0, NEKAHUIRO_NO_CUT, 0);
    check("  its sixteen records are stamped", play_old(), NEKAHUIRO_DONE);
}

/* Reads the stamps of edition 1 and writes each to four records of edition 2; the power goes after so many
 * page writes of the commit. */
static uint8_t take_over(uint32_t count, const uint8_t **last)
{
    old_event(NEKAHUIRO_RECOVER, 0, 0, 0, NEKAHUIRO_NO_CUT, 0);
    old_event(NEKAHUIRO_BEGIN, NEKAHUIRO_NO_PARENT, 0, 0, 0, 0);
    for (uint32_t r = 0; r < NEKAHUIRO_RECORDS; r++) {
        old_event(NEKAHUIRO_LOCK, 0, r, 0, 0, NEKAHUIRO_READ_MODE);
        old_event(NEKAHUIRO_READ, 0, r, 3, 0, 0);
    }
    if (play_old() != NEKAHUIRO_DONE)
        return 0xFF;
    event(NEKAHUIRO_RECOVER, 0, 0, 0, NEKAHUIRO_EDITION2_NO_CUT, 0);
    event(NEKAHUIRO_BEGIN, NEKAHUIRO_NO_PARENT, 0, 0, 0, 0);
    for (uint32_t r = 0; r < NEKAHUIRO_EDITION2_RECORDS; r++) {
        /* The read of record r / 4 is event 3 + 2 * (r / 4). */
        event(NEKAHUIRO_LOCK, 0, r, 0, 0, NEKAHUIRO_WRITE_MODE);
        event(NEKAHUIRO_WRITE, 0, r, 3, 0, old_answers[(3 + 2 * (r / 4)) * NEKAHUIRO_ANSWER_BYTES + 1]);
    }
    event(NEKAHUIRO_COMMIT, 0, 0, 0, count, 0);
    return play(last);
}

/* Records whose age at minute 20 is the one that is due: from the old stamps, or from none. */
static long aged(int taken)
{
    long right = 0;

    for (uint8_t r = 0; r < NEKAHUIRO_EDITION2_RECORDS; r++) {
        int64_t age = -99;

        right += nekahuiro_age_edition2(store, sizeof store, r, 20, 20, &age) == NEKAHUIRO_LIVE
                 && age == (taken ? 20 - (r / 4 + 1) : 20);
    }
    return right;
}

static void cuts(void)
{
    const uint8_t *last;

    check("a fresh store of edition 2 is laid down", nekahuiro_fresh_edition2(store, sizeof store), NEKAHUIRO_DONE);
    check("a run is played in which the power goes after 64 page writes of the last commit", take_over(64, &last), NEKAHUIRO_DONE);
    check("  the commit is answered as cut", last[0], NEKAHUIRO_CUT);
    check("  all of it is lost", aged(0), 64);
    check("a run is played in which the power goes after 65 page writes of the last commit", take_over(65, &last), NEKAHUIRO_DONE);
    check("  the commit is answered as cut", last[0], NEKAHUIRO_CUT);
    check("  all of it survives", aged(1), 64);
    check("  page 0 names sixty-four records", store[8] == 0xFF && store[9] == 0x80, 1);
    check("a run is played in which the power goes before the last page write", take_over(129, &last), NEKAHUIRO_DONE);
    check("  129 page writes were made", last[0] == NEKAHUIRO_CUT && last[1] == 129, 1);
    check("a run is played in which no power cut comes", take_over(130, &last), NEKAHUIRO_DONE);
    check("  130 page writes were made", last[0] == NEKAHUIRO_DONE && last[1] == 130, 1);
    check("  page 0 is empty again", store[0], 0x20);
    check("  the records are the same", aged(1), 64);
}

/* The page writes of a commit of records 5 and 63, told one by one and programmed on a medium: with all of them the medium
 * is the store that the run leaves. */
static void page_writes(void)
{
    static uint8_t medium[NEKAHUIRO_EDITION2_STORE_BYTES], copy[NEKAHUIRO_EDITION2_STORE_BYTES];
    static const uint8_t pages[] = {6, 64, 0, 70, 128, 0};
    uint8_t write[NEKAHUIRO_PAGE_WRITE_BYTES], index = 0, in_order = 1, number;
    const uint8_t *last, *commit;
    size_t before;

    memcpy(medium, store, sizeof store);
    event(NEKAHUIRO_RECOVER, 0, 0, 0, NEKAHUIRO_EDITION2_NO_CUT, 0);
    event(NEKAHUIRO_BEGIN, NEKAHUIRO_NO_PARENT, 0, 0, 0, 0);
    event(NEKAHUIRO_LOCK, 0, 63, 0, 0, NEKAHUIRO_WRITE_MODE);
    event(NEKAHUIRO_WRITE, 0, 63, 31, 0, 7);
    event(NEKAHUIRO_LOCK, 0, 5, 0, 0, NEKAHUIRO_WRITE_MODE);
    event(NEKAHUIRO_WRITE, 0, 5, 31, 0, 8);
    before = events * NEKAHUIRO_EDITION2_EVENT_BYTES;
    commit = list + before;
    event(NEKAHUIRO_COMMIT, 0, 0, 0, NEKAHUIRO_EDITION2_NO_CUT, 0);
    for (;; index++) {
        memcpy(copy, store, sizeof store);
        number = nekahuiro_page_write_edition2(copy, sizeof copy, list, before, work, sizeof work, answers, sizeof answers,
                                               commit, NEKAHUIRO_EDITION2_EVENT_BYTES, index, write, sizeof write);
        if (number != NEKAHUIRO_DONE)
            break;
        in_order &= index < sizeof pages && write[0] == pages[index];
        memcpy(medium + write[0] * NEKAHUIRO_PAGE_BYTES, write + 1, NEKAHUIRO_PAGE_BYTES);
    }
    check("after a list, the page writes of a commit are told one by one", number, NEKAHUIRO_NO_SUCH_WRITE);
    check("  there are six", index, 6);
    check("  intention pages, commit page, home pages, commit page", in_order, 1);
    check("  the copy is left as the list leaves it, and the event isn't played", memcmp(copy, store, sizeof store), 0);
    check("then the commit is played", play(&last), NEKAHUIRO_DONE);
    check("  the medium is what it left", memcmp(medium, store, sizeof store), 0);
    check("an event of 4 bytes is refused",
          nekahuiro_page_write_edition2(store, sizeof store, list, 8, work, sizeof work, answers, sizeof answers, list, 4, 0,
                                        write, sizeof write), NEKAHUIRO_BAD_LIST);
}

static void refused(void)
{
    uint8_t before[NEKAHUIRO_EDITION2_STORE_BYTES];
    const uint8_t *last;
    int64_t age = 99;

    memcpy(before, store, sizeof store);
    check("a list of 4 bytes is refused",
          nekahuiro_run_edition2(store, sizeof store, list, 4, work, sizeof work, answers, sizeof answers), NEKAHUIRO_BAD_LIST);
    check("edition 1's working buffer is refused",
          nekahuiro_run_edition2(store, sizeof store, list, 8, old_work, sizeof old_work, answers, sizeof answers),
          NEKAHUIRO_BAD_WORK);
    check("a short answer buffer is refused",
          nekahuiro_run_edition2(store, sizeof store, list, 8, work, sizeof work, answers, 1), NEKAHUIRO_SHORT_ANSWERS);
    check("a store of edition 1 is refused",
          nekahuiro_run_edition2(old_store, sizeof old_store, list, 8, work, sizeof work, answers, sizeof answers),
          NEKAHUIRO_BAD_STORE);
    check("  and so is one of edition 2 in edition 1",
          nekahuiro_run(store, sizeof store, list, 8, old_work, sizeof old_work, answers, sizeof answers), NEKAHUIRO_BAD_STORE);
    check("an age of record 64 is refused", nekahuiro_age_edition2(store, sizeof store, 64, 5, 10, &age), NEKAHUIRO_BAD_RECORD);
    check("  the age is untouched", (long)age, 99);
    event(NEKAHUIRO_RECOVER, 0, 0, 0, NEKAHUIRO_EDITION2_NO_CUT, 0);
    list[NEKAHUIRO_EDITION2_EVENT_BYTES - 1] |= 1;
    check("a word with its last bit set is played", play(&last), NEKAHUIRO_DONE);
    check("  and answered as a bad event", last[0], NEKAHUIRO_BAD_EVENT);
    event(NEKAHUIRO_RECOVER, 0, 0, 0, NEKAHUIRO_EDITION2_NO_CUT, 0);
    event(NEKAHUIRO_QUERY, 0, 0, 0, 0, 7);
    check("a query is played", play(&last), NEKAHUIRO_DONE);
    check("  and answered as a bad event", last[0], NEKAHUIRO_BAD_EVENT);
    check("  the store is untouched", memcmp(before, store, sizeof store), 0);
    store[0] = 0x10;
    event(NEKAHUIRO_RECOVER, 0, 0, 0, NEKAHUIRO_EDITION2_NO_CUT, 0);
    check("a store whose page 0 has edition 1 is played", play(&last), NEKAHUIRO_DONE);
    check("  and recover finds it damaged", last[0], NEKAHUIRO_DAMAGED);
    check("  and so does an age", nekahuiro_age_edition2(store, sizeof store, 63, 5, 10, &age), NEKAHUIRO_DAMAGED);
}

int main(void)
{
    make_old();
    cuts();
    page_writes();
    refused();
    if (failures) {
        printf("%d results are wrong\n", failures);
        return 1;
    }
    puts("all results are right");
    return 0;
}
