/* Events one by one, as a board gets them: the caller keeps the state between them.
 * Build at the root of the repository:
 *   cc -Wall -Wextra -Werror -Iinclude examples/c/portions.c target/staticlib/libnekahuiro.a -o portions
 * The exit status is 0 only if every result is the one that the header promises. */

#include "nekahuiro.h"

#include <stdio.h>
#include <string.h>

_Static_assert(sizeof(nekahuiro_state) == NEKAHUIRO_STATE_BYTES, "the state has no padding");

static int failures = 0;

/* Tells a sentence if it is true, and otherwise what was found. */
static void check(const char *sentence, long found, long due)
{
    if (found == due) {
        puts(sentence);
        return;
    }
    printf("NOT SO: %s (%ld, and %ld is due)\n", sentence, found, due);
    failures++;
}

/* All that is kept from one event to the next. */
static nekahuiro_state state; /* all zeros: down, and nothing live */
static uint8_t store[NEKAHUIRO_STORE_BYTES];
static uint8_t work[NEKAHUIRO_WORK_BYTES];

/* Plays one event word; its answer, or the refusal of the portion times 256. */
static long play(uint32_t bits, uint8_t *value)
{
    uint8_t word[NEKAHUIRO_EVENT_BYTES], answer[NEKAHUIRO_ANSWER_BYTES], refused;

    for (int i = 0; i < NEKAHUIRO_EVENT_BYTES; i++)
        word[i] = (uint8_t)(bits >> (24 - 8 * i));
    refused = nekahuiro_portion(&state, store, sizeof store, word, sizeof word, work, sizeof work, answer, sizeof answer);
    if (refused)
        return refused * 256L;
    *value = answer[1];
    return answer[0];
}

static void one_by_one(void)
{
    uint8_t value = 0;

    check("the store recovers", play(0x80003F00, &value), NEKAHUIRO_DONE);
    check("  the state says up", state.up, 1);
    check("a top transaction begins", play(0x1F800000, &value), NEKAHUIRO_DONE);
    check("  its number is 0", value, 0);
    check("it locks record 3", play(0x20180000, &value), NEKAHUIRO_DONE);
    check("  the state says that 0 holds it", (long)state.held[2 * 3], 1);
    check("  and that it holds it in write mode", (long)state.held[2 * 3 + 1], 1);
    check("it writes A5", play(0x301880A5, &value), NEKAHUIRO_DONE);
    check("  the home page is as before", store[(17 + 3) * NEKAHUIRO_PAGE_BYTES + 2], 0);
    check("  the version is in the working buffer", work[3 * NEKAHUIRO_DEPTH_LIMIT * NEKAHUIRO_PAGE_BYTES + 2], 0xA5);
    check("it reads that byte", play(0x40188000, &value), NEKAHUIRO_DONE);
    check("  the byte is A5", value, 0xA5);
    check("it commits", play(0x50003F00, &value), NEKAHUIRO_DONE);
    check("  4 page writes were made", value, 4);
    check("  the home page has it", store[(17 + 3) * NEKAHUIRO_PAGE_BYTES + 2], 0xA5);
    check("  number 0 is free again", state.depth[0], 0);
}

static void readers(void)
{
    uint8_t value = 0;

    check("a top transaction begins", play(0x1F800000, &value), NEKAHUIRO_DONE);
    check("and a second one", play(0x1F800000, &value), NEKAHUIRO_DONE);
    check("0 locks record 3 to read", play(0x20180001, &value), NEKAHUIRO_DONE);
    check("1 does too", play(0x20980001, &value), NEKAHUIRO_DONE);
    check("  the state says that both hold it", (long)state.held[2 * 3], 3);
    check("  and neither in write mode", (long)state.held[2 * 3 + 1], 0);
    check("1 reads", play(0x40988000, &value), NEKAHUIRO_DONE);
    check("  the byte is A5", value, 0xA5);
    check("1 can't write", play(0x309880FF, &value), NEKAHUIRO_NOT_HELD);
    check("nor raise its lock while 0 reads", play(0x20980000, &value), NEKAHUIRO_NOT_GRANTABLE);
    check("0 commits", play(0x50003F00, &value), NEKAHUIRO_DONE);
    check("now 1 raises its lock", play(0x20980000, &value), NEKAHUIRO_DONE);
    check("there is no mode 2", play(0x20980002, &value), NEKAHUIRO_BAD_EVENT);
    check("1 commits", play(0x50803F00, &value), NEKAHUIRO_DONE);
}

static void refused(void)
{
    nekahuiro_state before;
    uint8_t value = 0x77, none = 0; /* an empty buffer is no null pointer */

    state.depth[5] = 3; /* a transaction of depth 3 without a parent */
    before = state;
    check("a state that isn't sound is refused", play(0x1F800000, &value), NEKAHUIRO_BAD_STATE * 256L);
    check("  the state is untouched", memcmp(&before, &state, sizeof state), 0);
    memset(&state, 0, sizeof state); /* start again, as after a power cut */
    check("from the start state a begin is refused: the store is down", play(0x1F800000, &value), NEKAHUIRO_DOWN);
    check("an empty portion is played",
          nekahuiro_portion(&state, store, sizeof store, &none, 0, work, sizeof work, &value, 0), NEKAHUIRO_DONE);
}

int main(void)
{
    check("a fresh store is laid down", nekahuiro_fresh(store, sizeof store), NEKAHUIRO_DONE);
    one_by_one();
    readers();
    refused();
    if (failures) {
        printf("%d results are wrong\n", failures);
        return 1;
    }
    puts("all results are right");
    return 0;
}
