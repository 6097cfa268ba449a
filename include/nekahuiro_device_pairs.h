/* Nekahuiro on a device whose writes tear: copy writes that reach a medium.
 *
 * What nekahuiro_device.h is for pages that are written all or nothing, this is for a medium that may lose its power
 * within a write and then holds something bad there. Every page is kept as two copies (nekahuiro_pairs.h), and what
 * follows hands the copy writes of an event, as the library tells them, to a function of yours that programs one
 * copy: the first of a page, then its second, page after page. A recovery mends the medium before that. The power
 * may go at any moment, between two writes or within one.
 *
 * Event words, answers and NEKAHUIRO_MEDIUM_FAILED are those of nekahuiro_device.h; nothing can be prepared. Header
 * only, C99 and C++. It is ordinary code, tested and not proved. docs/DEVICE.md says what such a medium owes;
 * examples/c/flash_pairs.c is a whole device. Link libnekahuiro_pairs.a alone.
 */
#ifndef NEKAHUIRO_DEVICE_PAIRS_H
#define NEKAHUIRO_DEVICE_PAIRS_H

#include "nekahuiro_device.h"
#include "nekahuiro_pairs.h"

/* Programs one copy, NEKAHUIRO_PAIRS_FIRST_COPY or NEKAHUIRO_PAIRS_SECOND_COPY, of a page, 0 to 32: 0 once these bytes
 * are there to stay and the copy is good; anything else if it may not be. Cut by the power the copy is bad, and no
 * other copy has changed. If a failure can pass, try again in here: the same copy with the same bytes does no harm. */
typedef int nekahuiro_program_pairs(void *medium, uint8_t page, uint8_t copy, const uint8_t bytes[NEKAHUIRO_PAGE_BYTES]);

/* All that is kept in memory, some 11 KB. Read any field; nekahuiro_age_pairs takes `store`. */
typedef struct nekahuiro_device_pairs {
    nekahuiro_program_pairs *program;
    void *medium;   /* what `program` is called with */
    uint8_t failed; /* 1 after a copy write that failed */
    nekahuiro_state state;
    uint8_t store[NEKAHUIRO_PAIRS_STORE_BYTES]; /* the copy of the medium in memory */
    uint8_t work[NEKAHUIRO_WORK_BYTES];
} nekahuiro_device_pairs;

/* As after a power cut: nothing is live, and the medium has to be read. The answer's value is how many copy writes
 * were made before. */
static inline nekahuiro_answer nekahuiro_device_pairs_fail(nekahuiro_device_pairs *device, uint8_t made)
{
    memset(&device->state, 0, sizeof device->state);
    device->failed = 1;
    return nekahuiro_answer_of(NEKAHUIRO_MEDIUM_FAILED, made);
}

/* Mends the medium before a recovery, unless that is refused: of each page whose copies aren't both good and alike, the
 * copy that isn't its first good one is written. Adds to *made; 1 if a write failed. What is mended shows the same
 * before and after, also where the power goes in between. */
static inline int nekahuiro_device_pairs_mend(nekahuiro_device_pairs *device, uint8_t *made)
{
    int64_t unused;
    uint8_t page, pages = NEKAHUIRO_PAIRS_STORE_BYTES / NEKAHUIRO_PAIRS_PAIR_BYTES;

    /* An age is refused with 4 exactly where a recover is. */
    if (nekahuiro_age_pairs(device->store, sizeof device->store, 0, 0, 0, &unused) == NEKAHUIRO_DAMAGED)
        return 0;
    for (page = 0; page < pages; page++) {
        const uint8_t *first = device->store + page * NEKAHUIRO_PAIRS_PAIR_BYTES;
        const uint8_t *second = first + NEKAHUIRO_PAIRS_COPY_BYTES;
        int by_first = first[0] == NEKAHUIRO_PAIRS_GOOD;

        if (by_first && memcmp(first, second, NEKAHUIRO_PAIRS_COPY_BYTES) == 0)
            continue;
        if (device->program(device->medium, page, by_first ? NEKAHUIRO_PAIRS_SECOND_COPY : NEKAHUIRO_PAIRS_FIRST_COPY,
                            (by_first ? first : second) + 1))
            return 1;
        ++*made;
    }
    return 0;
}

/* Plays one event through to the medium, of any kind: before a recovery what mends the medium, then the event's copy
 * writes, one by one in their order, then the event on the copy in memory. A refused event writes nothing and changes
 * nothing. The count of what writes pages is set to 63, whatever the word has. */
static inline nekahuiro_answer nekahuiro_device_pairs_play(nekahuiro_device_pairs *device, uint32_t word)
{
    uint32_t kind = word >> 28;
    uint8_t event[NEKAHUIRO_EVENT_BYTES], answer[NEKAHUIRO_ANSWER_BYTES], write[NEKAHUIRO_PAIRS_COPY_WRITE_BYTES];
    uint8_t index, refused, made = 0;

    if (device->failed)
        return nekahuiro_answer_of(NEKAHUIRO_MEDIUM_FAILED, 0);
    if (kind == NEKAHUIRO_COMMIT || kind == NEKAHUIRO_RECOVER) {
        word |= (uint32_t)NEKAHUIRO_NO_CUT << 8;
        /* Uncut, nothing tears. A value that there isn't stays, and is refused. */
        if ((word & 255) <= NEKAHUIRO_PAIRS_SECOND_OLD)
            word &= ~(uint32_t)255;
    }
    for (index = 0; index < NEKAHUIRO_EVENT_BYTES; index++)
        event[index] = (uint8_t)(word >> (24 - 8 * index));
    if (word == nekahuiro_word_recover() && !device->state.up && nekahuiro_device_pairs_mend(device, &made))
        return nekahuiro_device_pairs_fail(device, made);
    for (index = 0;; index++) {
        refused = nekahuiro_page_write_pairs(&device->state, device->store, sizeof device->store, event, sizeof event,
                                             device->work, sizeof device->work, index, write, sizeof write);
        if (refused)
            break;
        if (device->program(device->medium, write[0], write[1], write + 2))
            return nekahuiro_device_pairs_fail(device, (uint8_t)(made + index));
    }
    if (refused == NEKAHUIRO_NO_SUCH_WRITE)
        refused = nekahuiro_portion_pairs(&device->state, device->store, sizeof device->store, event, sizeof event,
                                          device->work, sizeof device->work, answer, sizeof answer);
    return refused ? nekahuiro_answer_of(refused, 0) : nekahuiro_answer_of(answer[0], answer[1]);
}

/* The power has come on: takes what the medium holds, each copy with its status, and recovers. NEKAHUIRO_DONE with the
 * page writes of the recovery; NEKAHUIRO_DAMAGED if page 0 can't be read or a page has no good copy, and then nothing is
 * written; or NEKAHUIRO_MEDIUM_FAILED. `bytes` may be the device's own `store`; whatever else the device was has no
 * effect. */
static inline nekahuiro_answer nekahuiro_device_pairs_start(nekahuiro_device_pairs *device,
                                                            nekahuiro_program_pairs *program, void *medium,
                                                            const uint8_t bytes[NEKAHUIRO_PAIRS_STORE_BYTES])
{
    device->program = program;
    device->medium = medium;
    device->failed = 0;
    memset(&device->state, 0, sizeof device->state);
    memmove(device->store, bytes, sizeof device->store);
    return nekahuiro_device_pairs_play(device, nekahuiro_word_recover());
}

/* Lays down a fresh store on a medium that may hold anything, and starts. All that was there is lost. Page 0 comes
 * first, as zeros, so that it can't be read until all others are blank; then pages 1 to 32; then page 0 as the empty
 * commit page: 68 copy writes. Cut by the power, the medium shows what it was, or its start is answered
 * NEKAHUIRO_DAMAGED, or it is fresh; laying down again mends it. NEKAHUIRO_DONE, or NEKAHUIRO_MEDIUM_FAILED with the
 * copy writes made before. */
static inline nekahuiro_answer nekahuiro_device_pairs_lay(nekahuiro_device_pairs *device, nekahuiro_program_pairs *program,
                                                          void *medium)
{
    static const uint8_t zeros[NEKAHUIRO_PAGE_BYTES] = {0};
    uint8_t write, copy, pages = NEKAHUIRO_PAIRS_STORE_BYTES / NEKAHUIRO_PAIRS_PAIR_BYTES;

    nekahuiro_fresh_pairs(device->store, sizeof device->store);
    for (write = 0; write <= pages; write++) {
        uint8_t page = write < pages ? write : 0;
        const uint8_t *fresh = device->store + page * NEKAHUIRO_PAIRS_PAIR_BYTES + 1;

        for (copy = NEKAHUIRO_PAIRS_FIRST_COPY; copy <= NEKAHUIRO_PAIRS_SECOND_COPY; copy++)
            if (program(medium, page, copy, write == 0 ? zeros : fresh))
                return nekahuiro_device_pairs_fail(device, (uint8_t)(2 * write + copy));
    }
    return nekahuiro_device_pairs_start(device, program, medium, device->store);
}

static inline nekahuiro_answer nekahuiro_device_pairs_player(void *device, uint32_t word)
{
    return nekahuiro_device_pairs_play((nekahuiro_device_pairs *)device, word);
}

/* Writes a whole record for a transaction: locks it to write, then its 32 bytes. Nothing reaches the medium before the
 * commit. NEKAHUIRO_DONE, or why not, and then no byte is written. */
static inline nekahuiro_answer nekahuiro_device_pairs_put(nekahuiro_device_pairs *device, uint32_t transaction,
                                                          uint32_t record, const uint8_t bytes[NEKAHUIRO_PAGE_BYTES])
{
    return nekahuiro_put_by(nekahuiro_device_pairs_player, device, transaction, record, bytes);
}

/* Reads a whole record for a transaction: locks it to read, then its 32 bytes. NEKAHUIRO_DONE, or why not, and then
 * `bytes` is untouched. */
static inline nekahuiro_answer nekahuiro_device_pairs_get(nekahuiro_device_pairs *device, uint32_t transaction,
                                                          uint32_t record, uint8_t bytes[NEKAHUIRO_PAGE_BYTES])
{
    return nekahuiro_get_by(nekahuiro_device_pairs_player, device, transaction, record, bytes);
}

#endif
