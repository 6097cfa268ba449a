/* How much stack the calls of edition 2 use. The exit status is 0 only if it is less than the header says. */

#include "painted_stack.h"

#include "nekahuiro_edition2.h"

static int played = 0;

static void put(uint8_t *list, size_t at, uint64_t kind, uint64_t transaction, uint64_t record, uint64_t count)
{
    uint64_t bits = kind << 60 | transaction << 55 | record << 49 | count << 36;

    for (int i = 0; i < NEKAHUIRO_EDITION2_EVENT_BYTES; i++)
        list[at * NEKAHUIRO_EDITION2_EVENT_BYTES + i] = (uint8_t)(bits >> (56 - 8 * i));
}

/* Every kind of event with every path of commit and recover: nest, write all records, commit up, cut, recover. */
static void *calls(void *unused)
{
    static uint8_t store[NEKAHUIRO_EDITION2_STORE_BYTES], work[NEKAHUIRO_EDITION2_WORK_BYTES];
    static uint8_t list[NEKAHUIRO_EDITION2_LIST_BYTES], answers[NEKAHUIRO_EVENTS * NEKAHUIRO_ANSWER_BYTES];
    uint8_t write[NEKAHUIRO_PAGE_WRITE_BYTES];
    size_t at = 0, top;
    int64_t age = 0;

    put(list, at++, NEKAHUIRO_RECOVER, 0, 0, NEKAHUIRO_EDITION2_NO_CUT);
    put(list, at++, NEKAHUIRO_BEGIN, NEKAHUIRO_NO_PARENT, 0, 0);
    for (uint64_t t = 0; t + 1 < NEKAHUIRO_DEPTH_LIMIT; t++)
        put(list, at++, NEKAHUIRO_BEGIN, t, 0, 0);
    for (uint64_t t = NEKAHUIRO_DEPTH_LIMIT; t-- > 0;) {
        for (uint64_t r = 0; r < NEKAHUIRO_EDITION2_RECORDS; r++) {
            put(list, at++, NEKAHUIRO_LOCK, t, r, 0);
            put(list, at++, NEKAHUIRO_WRITE, t, r, 0);
            put(list, at++, NEKAHUIRO_READ, t, r, 0);
        }
        put(list, at++, NEKAHUIRO_COMMIT, t, 0, t == 0 ? 80 : NEKAHUIRO_EDITION2_NO_CUT);
    }
    top = at - 1;
    put(list, at++, NEKAHUIRO_RECOVER, 0, 0, NEKAHUIRO_EDITION2_NO_CUT);
    put(list, at++, NEKAHUIRO_BEGIN, NEKAHUIRO_NO_PARENT, 0, 0);
    put(list, at++, NEKAHUIRO_ABORT, 0, 0, 0);
    put(list, at++, NEKAHUIRO_CRASH, 0, 0, 0);
    played = nekahuiro_fresh_edition2(store, sizeof store) == 0
             && nekahuiro_run_edition2(store, sizeof store, list, at * NEKAHUIRO_EDITION2_EVENT_BYTES, work, sizeof work,
                                       answers, sizeof answers) == 0
             /* The recover wrote all records home. */
             && answers[(at - 4) * NEKAHUIRO_ANSWER_BYTES] == NEKAHUIRO_DONE
             && answers[(at - 4) * NEKAHUIRO_ANSWER_BYTES + 1] == NEKAHUIRO_EDITION2_RECORDS + 1
             && nekahuiro_page_write_edition2(store, sizeof store, list, top * NEKAHUIRO_EDITION2_EVENT_BYTES, work, sizeof work,
                                              answers, sizeof answers, list + top * NEKAHUIRO_EDITION2_EVENT_BYTES,
                                              NEKAHUIRO_EDITION2_EVENT_BYTES, 128, write, sizeof write) == NEKAHUIRO_DONE
             && write[0] == 128
             && nekahuiro_age_edition2(store, sizeof store, 63, 5, 10, &age) <= NEKAHUIRO_STALE;
    return unused;
}

int main(void)
{
    int calls_fit = within("edition 2 uses", calls, NEKAHUIRO_EDITION2_STACK_BYTES);

    return !played || !calls_fit;
}
