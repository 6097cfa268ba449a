/* A store on pages that can tear: laid fresh; the age of a record told through torn pages; a commit torn at its commit
 * page, and the recovery after it; and the same events in portions, with their copy writes told.
 * Build at the root of the repository:
 *   cc -Wall -Wextra -Werror -Iinclude examples/c/pairs.c target/staticlib/libnekahuiro_pairs.a -o pairs
 * The exit status is 0 only if every result is the one that the header promises. */

#include "nekahuiro_pairs.h"

#include <stdio.h>
#include <string.h>

static int failures = 0;

/* Tells a sentence if it is true, and otherwise what was found. */
static void check(const char *sentence, long found, long due)
{
    if (found == due) {
        puts(sentence);
        return;
    }
    printf("NOT SO: %s (%ld, and %ld is due)\n", sentence, found, due);
    failures++;
}

static uint8_t store[NEKAHUIRO_PAIRS_STORE_BYTES];

/* A copy, first (0) or second (1), of a page. */
static uint8_t *copy(int page, int which)
{
    return store + page * NEKAHUIRO_PAIRS_PAIR_BYTES + which * NEKAHUIRO_PAIRS_COPY_BYTES;
}

/* Stamps a copy of a page, behind its status: four bytes, most significant first. */
static void stamp(int page, int which, uint32_t minutes)
{
    for (int i = 0; i < 4; i++)
        copy(page, which)[1 + i] = (uint8_t)(minutes >> (24 - 8 * i));
}

/* The pages of a store, and the home page of record 3. */
#define PAGES (1 + 2 * NEKAHUIRO_RECORDS)
#define HOME (1 + NEKAHUIRO_RECORDS + 3)

static void ages(void)
{
    int64_t age = -1;

    check("A store of atomic pages is too short: 22.", nekahuiro_fresh_pairs(store, NEKAHUIRO_STORE_BYTES), 22);
    check("A fresh store is laid.", nekahuiro_fresh_pairs(store, sizeof store), 0);

    int good = 0, empty = 0;
    for (int page = 0; page < PAGES; page++)
        for (int which = 0; which < 2; which++) {
            uint8_t due[NEKAHUIRO_PAGE_BYTES] = {page == 0 ? 0x10 : 0};
            good += copy(page, which)[0] == NEKAHUIRO_PAIRS_GOOD;
            empty += memcmp(copy(page, which) + 1, due, sizeof due) == 0;
        }
    check("Its 66 copies are good.", good, 66);
    check("And they are those of a fresh page.", empty, 66);

    /* Record 3 was stamped at minute 1,000, and a later write of it, at 1,600, was torn. */
    stamp(HOME, 0, 1000);
    stamp(HOME, 1, 1000);
    check("At minute 1,060, with a limit of 100, record 3 is live.", nekahuiro_age_pairs(store, sizeof store, 3, 1060, 100, &age), 0);
    check("It is 60 minutes old.", (long)age, 60);

    copy(HOME, 0)[0] = NEKAHUIRO_PAIRS_BAD;
    check("Its first copy left bad: the second tells.", nekahuiro_age_pairs(store, sizeof store, 3, 1060, 100, &age), 0);
    check("It is 60 minutes old.", (long)age, 60);

    copy(HOME, 0)[0] = NEKAHUIRO_PAIRS_GOOD;
    stamp(HOME, 0, 1600);
    check("First copy new, second old: the first tells.", nekahuiro_age_pairs(store, sizeof store, 3, 1060, 100, &age), 1);
    check("The stamp is 540 minutes ahead.", (long)age, -540);

    copy(HOME, 1)[0] = NEKAHUIRO_PAIRS_BAD;
    check("First copy new, second bad: the same.", nekahuiro_age_pairs(store, sizeof store, 3, 1060, 100, &age), 1);
    check("The stamp is 540 minutes ahead.", (long)age, -540);

    copy(HOME, 0)[0] = 2;
    age = 7;
    check("A status of 2 is bad too, and so no copy is good: 4.", nekahuiro_age_pairs(store, sizeof store, 3, 1060, 100, &age), 4);
    check("Also for another record.", nekahuiro_age_pairs(store, sizeof store, 0, 1060, 100, &age), 4);
    check("But a record that there isn't is 23 first.", nekahuiro_age_pairs(store, sizeof store, 16, 1060, 100, &age), 23);
    check("No age was written.", (long)age, 7);

    copy(HOME, 1)[0] = NEKAHUIRO_PAIRS_GOOD;
    copy(0, 0)[1] = 0x13;
    check("A commit page whose first good copy is prepared is damaged: 4.", nekahuiro_age_pairs(store, sizeof store, 3, 1060, 100, &age), 4);
    copy(0, 0)[0] = NEKAHUIRO_PAIRS_BAD;
    check("Torn, its second copy tells that it is empty.", nekahuiro_age_pairs(store, sizeof store, 3, 1060, 100, &age), 0);
    check("Record 3 is 60 minutes old.", (long)age, 60);
    check("Nothing was mended.", copy(0, 0)[0] == NEKAHUIRO_PAIRS_BAD && copy(HOME, 0)[0] == 2, 1);
}

static uint8_t work[NEKAHUIRO_WORK_BYTES], answers[8 * NEKAHUIRO_ANSWER_BYTES];

/* Up, and a transaction that writes A5 at offset 2 of record 3; then its commit, which makes four page writes: the
 * intention page, the commit page as committed, the home page, the commit page as empty. */
static const uint8_t changes[] = {0x80, 0x00, 0x3F, 0x00, 0x1F, 0x80, 0x00, 0x00,
                                  0x20, 0x18, 0x00, 0x00, 0x30, 0x18, 0x80, 0xA5};
static const uint8_t whole_commit[] = {0x50, 0x00, 0x3F, 0x00};

/* A whole list, whose commit is torn at its commit page: the power goes after one page write and within the next. */
static void torn_commit(void)
{
    static const uint8_t torn[] = {NEKAHUIRO_PAIRS_NOT_TORN, NEKAHUIRO_PAIRS_FIRST_BAD, NEKAHUIRO_PAIRS_SECOND_BAD,
                                   NEKAHUIRO_PAIRS_SECOND_OLD};
    static const uint8_t recover_and_read[] = {0x80, 0x00, 0x3F, 0x00, 0x1F, 0x80, 0x00, 0x00,
                                               0x20, 0x18, 0x00, 0x01, 0x40, 0x18, 0x80, 0x00};

    for (int way = 0; way < 4; way++) {
        uint8_t list[sizeof changes + 4] = {0};
        int counts = torn[way] >= NEKAHUIRO_PAIRS_SECOND_BAD;

        memcpy(list, changes, sizeof changes);
        memcpy(list + sizeof changes, (uint8_t[]){0x50, 0x00, 0x01, torn[way]}, 4);
        nekahuiro_fresh_pairs(store, sizeof store);
        check("A list is played.",
              nekahuiro_run_pairs(store, sizeof store, list, sizeof list, work, sizeof work, answers, sizeof answers), 0);
        check("Its commit is cut.", answers[8], NEKAHUIRO_CUT);
        check(counts ? "The torn page write counts: two were made." : "The torn page write doesn't count: one was made.",
              answers[9], 1 + counts);
        check("A recovery mends the store, and record 3 is read.",
              nekahuiro_run_pairs(store, sizeof store, recover_and_read, sizeof recover_and_read, work, sizeof work,
                                  answers, sizeof answers), 0);
        check(counts ? "The commit page was stored: it is A5." : "It wasn't: it is 0.", answers[7], counts ? 0xA5 : 0);
        check("Every copy is like its other.", memcmp(copy(0, 0), copy(0, 1), NEKAHUIRO_PAIRS_COPY_BYTES), 0);
    }
}

/* The same events as they come, on a state that is kept, and what the commit writes before it is played. */
static void in_portions(void)
{
    static const uint8_t pages[] = {4, 4, 0, 0, 20, 20, 0, 0};
    static nekahuiro_state state; /* zeros: the start */
    uint8_t write[NEKAHUIRO_PAIRS_COPY_WRITE_BYTES], index = 0;
    int as_told = 1;

    nekahuiro_fresh_pairs(store, sizeof store);
    for (size_t at = 0; at < sizeof changes; at += NEKAHUIRO_EVENT_BYTES)
        check("An event is a portion.",
              nekahuiro_portion_pairs(&state, store, sizeof store, changes + at, NEKAHUIRO_EVENT_BYTES, work, sizeof work,
                                      answers, sizeof answers), 0);
    while (nekahuiro_page_write_pairs(&state, store, sizeof store, whole_commit, sizeof whole_commit, work, sizeof work,
                                      index, write, sizeof write) == NEKAHUIRO_DONE) {
        as_told &= index < sizeof pages && write[0] == pages[index] && write[1] == index % 2;
        index++;
    }
    check("The commit makes eight copy writes.", index, 8);
    check("Of each page the first copy comes first.", as_told, 1);
    check("It is played.",
          nekahuiro_portion_pairs(&state, store, sizeof store, whole_commit, sizeof whole_commit, work, sizeof work,
                                  answers, sizeof answers), 0);
    check("And answers four page writes.", answers[1], 4);
    copy(HOME, 1)[0] = NEKAHUIRO_PAIRS_BAD;
    check("A copy that goes bad while up is no state to go on from: 25.",
          nekahuiro_portion_pairs(&state, store, sizeof store, changes, 0, work, sizeof work, answers, sizeof answers),
          NEKAHUIRO_BAD_STATE);
}

int main(void)
{
    ages();
    torn_commit();
    in_portions();
    if (failures == 0)
        puts("all results are right");
    return failures != 0;
}
