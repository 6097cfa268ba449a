/* Transactions that wait on each other, as a board finds them when its locks are refused again and again.
 * Build at the root of the repository:
 *   cc -Wall -Wextra -Werror -Iinclude examples/c/waiting.c target/staticlib/libnekahuiro.a -o waiting
 * The exit status is 0 only if every result is the one that the header promises. */

#include "nekahuiro.h"

#include <stdio.h>
#include <string.h>

_Static_assert(sizeof(nekahuiro_row) == 3 && sizeof(nekahuiro_ring) == 25, "rows and rings have no padding");

static int failures = 0;

static void check(const char *what, long found, long due)
{
    printf("%-58s %ld%s\n", what, found, found == due ? "" : "   WRONG");
    if (found != due)
        failures++;
}

static nekahuiro_state state;
static uint8_t store[NEKAHUIRO_STORE_BYTES];
static uint8_t work[NEKAHUIRO_WORK_BYTES];

/* Plays one event word; the number of its answer. */
static long play(uint32_t bits)
{
    uint8_t word[NEKAHUIRO_EVENT_BYTES], answer[NEKAHUIRO_ANSWER_BYTES];

    for (int i = 0; i < NEKAHUIRO_EVENT_BYTES; i++)
        word[i] = (uint8_t)(bits >> (24 - 8 * i));
    if (nekahuiro_portion(&state, store, sizeof store, word, sizeof word, work, sizeof work, answer, sizeof answer))
        return -1;
    return answer[0];
}

static uint32_t begin(uint32_t parent)
{
    return (uint32_t)NEKAHUIRO_BEGIN << 28 | parent << 23;
}

static uint32_t lock(uint32_t transaction, uint32_t record)
{
    return (uint32_t)NEKAHUIRO_LOCK << 28 | transaction << 23 | record << 19;
}

static void say(const nekahuiro_ring *ring)
{
    printf("  transaction %u", ring->transactions[0]);
    for (int i = 1; i <= ring->length; i++)
        printf("%s waits for %u", i == 1 ? "" : ", which", ring->transactions[i % ring->length]);
    printf("\n");
}

/* 0 has the children 1 and 2; 1 holds record 1. 3 stands at the top and holds record 2. */
static void a_ring_of_three(void)
{
    const nekahuiro_row rows[] = { { 2, 2, NEKAHUIRO_WRITE_MODE }, { 3, 1, NEKAHUIRO_WRITE_MODE } };
    nekahuiro_ring ring;

    check("recover", play(0x80003F00), NEKAHUIRO_DONE);
    check("begin 0", play(begin(NEKAHUIRO_NO_PARENT)), NEKAHUIRO_DONE);
    check("begin 1 under 0", play(begin(0)), NEKAHUIRO_DONE);
    check("1 locks record 1", play(lock(1, 1)), NEKAHUIRO_DONE);
    check("begin 2 under 0", play(begin(0)), NEKAHUIRO_DONE);
    check("begin 3", play(begin(NEKAHUIRO_NO_PARENT)), NEKAHUIRO_DONE);
    check("3 locks record 2", play(lock(3, 2)), NEKAHUIRO_DONE);
    check("2 can't lock record 2", play(lock(2, 2)), NEKAHUIRO_NOT_GRANTABLE);
    check("while it waits", nekahuiro_waiting(&state, rows, 1, &ring), 0);
    check("  there is no ring", ring.length, 0);
    check("3 can't lock record 1", play(lock(3, 1)), NEKAHUIRO_NOT_GRANTABLE);
    check("while both wait", nekahuiro_waiting(&state, rows, 2, &ring), 0);
    check("  there is a ring of", ring.length, 3);
    say(&ring);
    check("abort 3", play(0x60000000 | 3u << 23), NEKAHUIRO_DONE);
    check("2 waits on", nekahuiro_waiting(&state, rows, 1, &ring), 0);
    check("  and there is no ring", ring.length, 0);
    check("its lock is granted now", play(lock(2, 2)), NEKAHUIRO_DONE);
}

/* A refusal writes nothing. */
static void refusals(void)
{
    nekahuiro_row rows[NEKAHUIRO_ROWS + 1] = { { 2, 2, 7 }, { 9, 2, 0 } };
    nekahuiro_ring ring, before;

    memset(&ring, 0x5A, sizeof ring);
    before = ring;
    check("a bad mode, before a dead transaction", nekahuiro_waiting(&state, rows, 2, &ring), NEKAHUIRO_BAD_EVENT);
    rows[0].record = 16;
    check("a bad record", nekahuiro_waiting(&state, rows, 2, &ring), NEKAHUIRO_BAD_RECORD);
    rows[0].transaction = 3;
    check("a dead transaction", nekahuiro_waiting(&state, rows, 2, &ring), NEKAHUIRO_NOT_LIVE);
    check("25 rows", nekahuiro_waiting(&state, rows, NEKAHUIRO_ROWS + 1, &ring), NEKAHUIRO_MANY_ROWS);
    state.spare[0] = 1;
    check("an unsound state", nekahuiro_waiting(&state, rows, NEKAHUIRO_ROWS + 1, &ring), NEKAHUIRO_BAD_STATE);
    check("the ring is as it was", memcmp(&ring, &before, sizeof ring), 0);
}

int main(void)
{
    check("lay down a fresh store", nekahuiro_fresh(store, sizeof store), 0);
    a_ring_of_three();
    refusals();
    if (failures) {
        printf("%d results are wrong\n", failures);
        return 1;
    }
    puts("all results are right");
    return 0;
}
