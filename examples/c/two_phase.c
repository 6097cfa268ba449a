/* Two ends that commit together: a depot that decides, and a gateway that prepares, waits and obeys, with
 * the power going at the gateway and a message that comes twice: depot, vote, run.
 * Build at the root of the repository:
 *   cc -Wall -Wextra -Werror -Iinclude examples/c/two_phase.c target/staticlib/libnekahuiro.a -o two_phase
 * The exit status is 0 only if every result is the one that the header promises. */

#include "nekahuiro.h"

#include <stdio.h>

static int failures = 0;

/* Tells a sentence if it is true, and otherwise what was found. */
static void check(const char *sentence, long found, long due)
{
    if (found == due) {
        puts(sentence);
        return;
    }
    printf("NOT SO: %s (%ld, and %ld is due)\n", sentence, found, due);
    failures++;
}

/* Packs an event word. */
static void event(uint8_t word[NEKAHUIRO_EVENT_BYTES], uint32_t kind, uint32_t transaction,
                  uint32_t record, uint32_t offset, uint32_t count, uint32_t value)
{
    uint32_t bits = kind << 28 | transaction << 23 | record << 19 | offset << 14 | count << 8 | value;

    for (int i = 0; i < NEKAHUIRO_EVENT_BYTES; i++)
        word[i] = (uint8_t)(bits >> (24 - 8 * i));
}

static uint8_t store[NEKAHUIRO_STORE_BYTES];
static uint8_t work[NEKAHUIRO_WORK_BYTES];

/* The byte at offset 3 of the home page of record 3. */
static uint8_t home_byte(void)
{
    return store[NEKAHUIRO_PAGE_BYTES * (1 + NEKAHUIRO_RECORDS + 3) + 3];
}

/* The gateway comes up, changes a byte of record 3 and prepares that under an identity. */
static void prepare(uint8_t identity, uint8_t value, uint8_t answer[2])
{
    uint8_t list[5][NEKAHUIRO_EVENT_BYTES], answers[10];

    event(list[0], NEKAHUIRO_RECOVER, 0, 0, 0, NEKAHUIRO_NO_CUT, 0);
    event(list[1], NEKAHUIRO_BEGIN, NEKAHUIRO_NO_PARENT, 0, 0, 0, 0);
    event(list[2], NEKAHUIRO_LOCK, 0, 3, 0, 0, NEKAHUIRO_WRITE_MODE);
    event(list[3], NEKAHUIRO_WRITE, 0, 3, 3, 0, value);
    event(list[4], NEKAHUIRO_PREPARE, 0, 0, 0, NEKAHUIRO_NO_CUT, identity);
    check("the gateway plays recover, begin, lock, write, prepare",
          nekahuiro_run(store, sizeof store, list[0], sizeof list, work, sizeof work, answers, sizeof answers),
          NEKAHUIRO_DONE);
    answer[0] = answers[8];
    answer[1] = answers[9];
}

/* The gateway comes up and carries a decision out; the power goes after `count` page writes. */
static void decide(uint8_t identity, uint32_t decision, uint32_t count, uint8_t answers[4])
{
    uint8_t list[2][NEKAHUIRO_EVENT_BYTES];

    event(list[0], NEKAHUIRO_RECOVER, 0, 0, 0, NEKAHUIRO_NO_CUT, 0);
    event(list[1], NEKAHUIRO_DECIDE, 0, 0, decision, count, identity);
    check("the gateway plays recover, decide",
          nekahuiro_run(store, sizeof store, list[0], sizeof list, work, sizeof work, answers, 4), NEKAHUIRO_DONE);
}

static void both_commit(void)
{
    uint8_t depot = NEKAHUIRO_IDLE, reply = 99, answer[2], answers[8];
    uint8_t list[4][NEKAHUIRO_EVENT_BYTES];

    check("the depot starts identity 42", nekahuiro_depot(&depot, NEKAHUIRO_START, &reply), NEKAHUIRO_DONE);
    check("  its order is to prepare", reply, NEKAHUIRO_ORDER_PREPARE);
    prepare(42, 7, answer);
    check("  the prepare is done", answer[0], NEKAHUIRO_DONE);
    check("  with 2 page writes: an intention page, the commit page", answer[1], 2);
    check("  the gateway votes yes", nekahuiro_vote(NEKAHUIRO_PREPARE, answer[0], answer[1]), NEKAHUIRO_YES);

    puts("the power goes at the gateway, and the vote is lost");
    event(list[0], NEKAHUIRO_RECOVER, 0, 0, 0, NEKAHUIRO_NO_CUT, 0);
    event(list[1], NEKAHUIRO_BEGIN, NEKAHUIRO_NO_PARENT, 0, 0, 0, 0);
    event(list[2], NEKAHUIRO_LOCK, 0, 3, 0, 0, NEKAHUIRO_READ_MODE);
    event(list[3], NEKAHUIRO_QUERY, 0, 0, 0, 0, 42);
    check("the gateway plays recover, begin, lock, query",
          nekahuiro_run(store, sizeof store, list[0], sizeof list, work, sizeof work, answers, sizeof answers),
          NEKAHUIRO_DONE);
    check("  record 3 is still locked, also for a reader", answers[4], NEKAHUIRO_NOT_GRANTABLE);
    check("  identity 42 is still prepared", answers[7], 1);
    check("  the gateway votes yes", nekahuiro_vote(NEKAHUIRO_QUERY, answers[6], answers[7]), NEKAHUIRO_YES);

    check("the depot takes the yes", nekahuiro_depot(&depot, NEKAHUIRO_YES, &reply), NEKAHUIRO_DONE);
    check("  it has committed", depot, NEKAHUIRO_COMMITTED);
    check("  its order is to commit", reply, NEKAHUIRO_ORDER_COMMIT);
    check("the depot can't give up any more", nekahuiro_depot(&depot, NEKAHUIRO_GIVE_UP, &reply), NEKAHUIRO_NOT_TAKEN);

    decide(42, NEKAHUIRO_DECIDE_COMMIT, 1, answers);
    check("  the power goes during the decision", answers[2], NEKAHUIRO_CUT);
    check("  after 1 page write, so it is stored", answers[3], 1);
    decide(42, NEKAHUIRO_DECIDE_COMMIT, NEKAHUIRO_NO_CUT, answers);
    check("  the recover copies the record home, with 2 page writes", answers[1], 2);
    check("  the order that comes again does nothing, with no page write", answers[3], 0);
    check("  the byte is the new one", home_byte(), 7);
}

static void both_abort(void)
{
    uint8_t depot = NEKAHUIRO_IDLE, reply = 99, answer[2], answers[4];

    check("the depot starts identity 43", nekahuiro_depot(&depot, NEKAHUIRO_START, &reply), NEKAHUIRO_DONE);
    prepare(43, 8, answer);
    check("  the gateway votes yes, late", nekahuiro_vote(NEKAHUIRO_PREPARE, answer[0], answer[1]), NEKAHUIRO_YES);
    check("the depot gives up", nekahuiro_depot(&depot, NEKAHUIRO_GIVE_UP, &reply), NEKAHUIRO_DONE);
    check("  it has aborted", depot, NEKAHUIRO_ABORTED);
    check("the yes comes", nekahuiro_depot(&depot, NEKAHUIRO_YES, &reply), NEKAHUIRO_DONE);
    check("  the depot keeps to its decision: abort", reply, NEKAHUIRO_ORDER_ABORT);
    decide(43, NEKAHUIRO_DECIDE_ABORT, NEKAHUIRO_NO_CUT, answers);
    check("  with 1 page write: the empty commit page", answers[3], 1);
    check("  the byte is the one from before", home_byte(), 7);
    check("  page 0 is empty again", store[0], 0x10);
}

static void refused(void)
{
    uint8_t depot = NEKAHUIRO_IDLE, reply = 99;

    check("a vote that nobody asked for is refused", nekahuiro_depot(&depot, NEKAHUIRO_YES, &reply), NEKAHUIRO_NOT_TAKEN);
    check("  the reply is untouched", reply, 99);
    depot = 4;
    check("so is a state that there isn't", nekahuiro_depot(&depot, NEKAHUIRO_START, &reply), NEKAHUIRO_NOT_TAKEN);
    check("  it is untouched", depot, 4);
}

int main(void)
{
    check("a fresh store is laid down", nekahuiro_fresh(store, sizeof store), NEKAHUIRO_DONE);
    both_commit();
    both_abort();
    refused();
    if (failures) {
        printf("%d results are wrong\n", failures);
        return 1;
    }
    puts("all results are right");
    return 0;
}
