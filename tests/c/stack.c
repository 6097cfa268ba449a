/* How much stack the calls use: each runs on a painted stack, and the paint that is gone is counted.
 * The exit status is 0 only if it is less than the header says. */

#include "painted_stack.h"

#include "nekahuiro.h"

static uint8_t store[NEKAHUIRO_STORE_BYTES], work[NEKAHUIRO_WORK_BYTES];
static uint8_t events[NEKAHUIRO_EVENTS * NEKAHUIRO_EVENT_BYTES], answers[NEKAHUIRO_EVENTS * NEKAHUIRO_ANSWER_BYTES];
static nekahuiro_state state;
static nekahuiro_row rows[NEKAHUIRO_ROWS];
static int played = 0, audited = 0;

static void put(size_t at, uint32_t bits)
{
    for (int i = 0; i < NEKAHUIRO_EVENT_BYTES; i++)
        events[at * NEKAHUIRO_EVENT_BYTES + i] = (uint8_t)(bits >> (24 - 8 * i));
}

/* Every kind of event with every path of commit and recover: nest, write all records, commit up, cut; then
 * prepare all records, crash, recover, query, and both decisions. */
static size_t make_list(void)
{
    size_t at = 0;

    put(at++, 0x80003F00);
    put(at++, 0x1F800000);
    for (uint32_t t = 0; t + 1 < NEKAHUIRO_DEPTH_LIMIT; t++)
        put(at++, 0x10000000 | t << 23);
    for (uint32_t t = NEKAHUIRO_DEPTH_LIMIT; t-- > 0;) {
        for (uint32_t r = 0; r < NEKAHUIRO_RECORDS; r++) {
            put(at++, 0x20000000 | t << 23 | r << 19);
            put(at++, 0x30000055 | t << 23 | r << 19);
            put(at++, 0x40000000 | t << 23 | r << 19);
        }
        put(at++, 0x50000000 | t << 23 | (t == 0 ? 20u : 63u) << 8);
    }
    put(at++, 0x80003F00);
    put(at++, 0x1F800000);
    put(at++, 0x60000000);
    for (uint32_t decision = 0; decision < 2; decision++) {
        put(at++, 0x1F800000);
        for (uint32_t r = 0; r < NEKAHUIRO_RECORDS; r++) {
            put(at++, 0x20000000 | r << 19);
            put(at++, 0x30000055 | r << 19);
        }
        put(at++, 0x90003F07);
        put(at++, 0x70000000);
        put(at++, 0x80003F00);
        put(at++, 0xB0000007);
        put(at++, 0xA0003F07 | decision << 14);
    }
    put(at++, 0x70000000);
    return at;
}

/* Leaves the store up with a chain of transactions, the top one holding a record that the lowest waits for: every
 * one of them is in the ring. */
static uint8_t play_nested(void)
{
    size_t at = 0;

    put(at++, 0x80003F00);
    put(at++, 0x1F800000);
    put(at++, 0x20000000);
    for (uint32_t t = 0; t + 1 < NEKAHUIRO_DEPTH_LIMIT; t++)
        put(at++, 0x10000000 | t << 23);
    for (size_t i = 0; i < NEKAHUIRO_ROWS; i++)
        rows[i] = (nekahuiro_row){ NEKAHUIRO_DEPTH_LIMIT - 1, 0, NEKAHUIRO_WRITE_MODE };
    return nekahuiro_portion(&state, store, sizeof store, events, at * NEKAHUIRO_EVENT_BYTES, work, sizeof work, answers,
                             sizeof answers);
}

/* A transaction that has written all records, ready to commit. */
static size_t make_writer(void)
{
    size_t at = 0;

    put(at++, 0x80003F00);
    put(at++, 0x1F800000);
    for (uint32_t r = 0; r < NEKAHUIRO_RECORDS; r++) {
        put(at++, 0x20000000 | r << 19);
        put(at++, 0x30000055 | r << 19);
    }
    return at;
}

/* How many page writes its commit makes. */
static unsigned page_writes(void)
{
    static const uint8_t commit[NEKAHUIRO_EVENT_BYTES] = {0x50, 0, 0x3F, 0};
    uint8_t write[NEKAHUIRO_PAGE_WRITE_BYTES], index = 0;

    while (nekahuiro_page_write(&state, store, sizeof store, commit, sizeof commit, work, sizeof work, index, write,
                                sizeof write) == 0)
        index++;
    return index;
}

/* The same list up to the first prepare, audited against the answers and the store that it left. */
static size_t audited_length(void)
{
    size_t at = 0;

    make_list();
    while (events[at * NEKAHUIRO_EVENT_BYTES] >> 4 != NEKAHUIRO_PREPARE)
        at++;
    return at;
}

static void *audits(void *unused)
{
    static uint8_t start[NEKAHUIRO_STORE_BYTES];
    uint16_t place = 0;
    size_t bytes = audited_length() * NEKAHUIRO_EVENT_BYTES;

    audited = nekahuiro_fresh(start, sizeof start) == 0 && nekahuiro_fresh(store, sizeof store) == 0
              && nekahuiro_run(store, sizeof store, events, bytes, work, sizeof work, answers, sizeof answers) == 0
              && nekahuiro_audit(start, sizeof start, events, bytes, answers, sizeof answers, store, sizeof store, &place)
                     == NEKAHUIRO_BELONGS;
    return unused;
}

static void *calls(void *unused)
{
    /* The deepest sheet there is: the reader calls itself at each opening brace. */
    static const uint8_t sheet[] = "{{{{{{{{{{{{{{{{L0W00000R000}!}!}!}!}!}!}!}!";
    static uint8_t list[NEKAHUIRO_LIST_BYTES];
    int64_t age = 0;
    size_t told = 0;
    uint8_t depot = NEKAHUIRO_IDLE, reply = 0;
    nekahuiro_ring ring;
    size_t length = make_list();

    played = nekahuiro_fresh(store, sizeof store) == 0
             && nekahuiro_run(store, sizeof store, events, length * NEKAHUIRO_EVENT_BYTES, work, sizeof work, answers,
                              sizeof answers) == 0
             && nekahuiro_portion(&state, store, sizeof store, events, length * NEKAHUIRO_EVENT_BYTES, work, sizeof work,
                                  answers, sizeof answers) == 0
             && nekahuiro_age(store, sizeof store, 3, 5, 10, &age) <= NEKAHUIRO_STALE
             && nekahuiro_depot(&depot, NEKAHUIRO_START, &reply) == 0
             && nekahuiro_vote(NEKAHUIRO_QUERY, 0, 1) == NEKAHUIRO_YES && play_nested() == 0
             && nekahuiro_waiting(&state, rows, NEKAHUIRO_ROWS, &ring) == 0 && ring.length == NEKAHUIRO_DEPTH_LIMIT
             && nekahuiro_sheet(sheet, sizeof sheet - 1, list, sizeof list, &told) == 0;
    memset(&state, 0, sizeof state);
    length = make_writer();
    played = played
             && nekahuiro_portion(&state, store, sizeof store, events, length * NEKAHUIRO_EVENT_BYTES, work, sizeof work,
                                  answers, sizeof answers) == 0
             && page_writes() == 2 * NEKAHUIRO_RECORDS + 2;
    return unused;
}

int main(void)
{
    int calls_fit = within("the calls use", calls, NEKAHUIRO_STACK_BYTES);
    int audits_fit = within("an audit uses", audits, NEKAHUIRO_AUDIT_STACK_BYTES);

    return !played || !audited || !calls_fit || !audits_fit;
}
