/* How much stack the calls on pages that can tear use. The exit status is 0 only if it is less than the header says. */

#include "painted_stack.h"

#include "nekahuiro_pairs.h"

static int played = 0;

static void put(uint8_t *list, size_t at, uint32_t kind, uint32_t transaction, uint32_t record, uint32_t count, uint32_t value)
{
    uint32_t bits = kind << 28 | transaction << 23 | record << 19 | count << 8 | value;

    for (int i = 0; i < NEKAHUIRO_EVENT_BYTES; i++)
        list[at * NEKAHUIRO_EVENT_BYTES + i] = (uint8_t)(bits >> (24 - 8 * i));
}

/* Every kind of event with every path of commit and recover: nest, write all records, commit up, tear, mend, recover. */
static void *calls(void *unused)
{
    static uint8_t store[NEKAHUIRO_PAIRS_STORE_BYTES], again[NEKAHUIRO_PAIRS_STORE_BYTES], work[NEKAHUIRO_WORK_BYTES];
    static uint8_t list[NEKAHUIRO_LIST_BYTES], answers[NEKAHUIRO_EVENTS * NEKAHUIRO_ANSWER_BYTES];
    static nekahuiro_state state;
    uint8_t write[NEKAHUIRO_PAIRS_COPY_WRITE_BYTES];
    size_t at = 0, top;
    int64_t age = 0;

    put(list, at++, NEKAHUIRO_RECOVER, 0, 0, NEKAHUIRO_NO_CUT, 0);
    put(list, at++, NEKAHUIRO_BEGIN, NEKAHUIRO_NO_PARENT, 0, 0, 0);
    for (uint32_t t = 0; t + 1 < NEKAHUIRO_DEPTH_LIMIT; t++)
        put(list, at++, NEKAHUIRO_BEGIN, t, 0, 0, 0);
    for (uint32_t t = NEKAHUIRO_DEPTH_LIMIT; t-- > 0;) {
        for (uint32_t r = 0; r < NEKAHUIRO_RECORDS; r++) {
            put(list, at++, NEKAHUIRO_LOCK, t, r, 0, 0);
            put(list, at++, NEKAHUIRO_WRITE, t, r, 0, 0);
            put(list, at++, NEKAHUIRO_READ, t, r, 0, 0);
        }
        put(list, at++, NEKAHUIRO_COMMIT, t, 0, t == 0 ? 20 : NEKAHUIRO_NO_CUT, t == 0 ? NEKAHUIRO_PAIRS_SECOND_BAD : 0);
    }
    top = at - 1;
    put(list, at++, NEKAHUIRO_RECOVER, 0, 0, 3, NEKAHUIRO_PAIRS_FIRST_BAD);
    put(list, at++, NEKAHUIRO_RECOVER, 0, 0, NEKAHUIRO_NO_CUT, 0);
    put(list, at++, NEKAHUIRO_BEGIN, NEKAHUIRO_NO_PARENT, 0, 0, 0);
    put(list, at++, NEKAHUIRO_ABORT, 0, 0, 0, 0);
    put(list, at++, NEKAHUIRO_CRASH, 0, 0, 0, 0);
    played = nekahuiro_fresh_pairs(store, sizeof store) == 0 && nekahuiro_fresh_pairs(again, sizeof again) == 0
             && nekahuiro_run_pairs(store, sizeof store, list, at * NEKAHUIRO_EVENT_BYTES, work, sizeof work, answers,
                                    sizeof answers) == 0
             /* The last recover wrote all records home. */
             && answers[(at - 4) * NEKAHUIRO_ANSWER_BYTES] == NEKAHUIRO_DONE
             && answers[(at - 4) * NEKAHUIRO_ANSWER_BYTES + 1] == NEKAHUIRO_RECORDS + 1
             && nekahuiro_portion_pairs(&state, again, sizeof again, list, top * NEKAHUIRO_EVENT_BYTES, work, sizeof work,
                                        answers, sizeof answers) == 0
             && nekahuiro_page_write_pairs(&state, again, sizeof again, list + top * NEKAHUIRO_EVENT_BYTES,
                                           NEKAHUIRO_EVENT_BYTES, work, sizeof work, 65, write, sizeof write) == NEKAHUIRO_DONE
             && write[0] == 32 && write[1] == NEKAHUIRO_PAIRS_SECOND_COPY
             && nekahuiro_age_pairs(store, sizeof store, 15, 5, 10, &age) <= NEKAHUIRO_STALE;
    return unused;
}

int main(void)
{
    int calls_fit = within("pages that can tear use", calls, NEKAHUIRO_STACK_BYTES);

    return !played || !calls_fit;
}
