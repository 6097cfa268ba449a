/* A fitter's job sheet: made into a list, played as a portion, and a bad one shown where it goes wrong.
 * Build at the root of the repository:
 *   cc -Wall -Wextra -Werror -Iinclude examples/c/sheet.c target/staticlib/libnekahuiro.a -o sheet
 * The exit status is 0 only if every result is the one that the header promises. */

#include "nekahuiro.h"

#include <stdio.h>
#include <string.h>

static int failures = 0;

static void check(const char *what, long found, long due)
{
    printf("%-66s %ld%s\n", what, found, found == due ? "" : "   WRONG");
    if (found != due)
        failures++;
}

static uint8_t store[NEKAHUIRO_STORE_BYTES];
static uint8_t work[NEKAHUIRO_WORK_BYTES];
static uint8_t list[NEKAHUIRO_LIST_BYTES];
static uint8_t answers[NEKAHUIRO_EVENTS * NEKAHUIRO_ANSWER_BYTES];

static uint8_t read_sheet(const char *text, size_t *told)
{
    return nekahuiro_sheet((const uint8_t *)text, strlen(text), list, sizeof list, told);
}

/* The store comes up, and the list is played on a state with nothing live. */
static void play(size_t length)
{
    static const uint8_t recover[] = {0x80, 0x00, NEKAHUIRO_NO_CUT, 0x00};
    nekahuiro_state state = {0};

    check("the store comes up",
          nekahuiro_portion(&state, store, sizeof store, recover, sizeof recover, work, sizeof work, answers,
                            sizeof answers),
          NEKAHUIRO_DONE);
    check("the list is played",
          nekahuiro_portion(&state, store, sizeof store, list, length, work, sizeof work, answers, sizeof answers),
          NEKAHUIRO_DONE);
}

int main(void)
{
    size_t told = 0;

    check("a fresh store", nekahuiro_fresh(store, sizeof store), NEKAHUIRO_DONE);
    check("a sheet with a transaction in another", read_sheet("{{L3W302A5}L3R302}", &told), NEKAHUIRO_DONE);
    check("its list in bytes", (long)told, 8 * NEKAHUIRO_EVENT_BYTES);
    play(told);
    check("the inner transaction's number: its depth minus 1", answers[2 * 1 + 1], 1);
    check("what it wrote, read by its parent", answers[2 * 6 + 1], 0xA5);
    check("the page writes of the commit", answers[2 * 7 + 1], 4);

    check("a sheet with an offset above 1F", read_sheet("{L3W3402A5}", &told), NEKAHUIRO_BAD_SHEET);
    check("the place of the byte that can't stand there", (long)told, 5);
    check("a sheet that ends too soon", read_sheet("{L3", &told), NEKAHUIRO_BAD_SHEET);
    check("its length", (long)told, 3);
    if (failures) {
        printf("%d results are wrong\n", failures);
        return 1;
    }
    puts("all results are right");
    return 0;
}
