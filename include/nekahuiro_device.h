/* Nekahuiro on a device: event words by name, and page writes that reach a medium.
 *
 * The library changes a copy of the store in memory. A device keeps its store on a medium: flash, EEPROM,
 * FRAM, a file. What follows asks the library for the page writes of an event before it is played
 * (nekahuiro_page_write) and hands each to a function of yours that programs a page; only when all of them are
 * on the medium is the event played on the copy. The power may go at any moment: the medium then holds the
 * first k of these page writes, and that is what the library's proofs are about. Sending the pages that
 * differ after a commit, in any other order, isn't.
 *
 * Header only, C99 and C++; beside include/nekahuiro.h it needs memcpy, memmove and memset. It is ordinary
 * code, tested and not proved. docs/DEVICE.md says what a medium owes; examples/c/flash.c is a whole device.
 */
#ifndef NEKAHUIRO_DEVICE_H
#define NEKAHUIRO_DEVICE_H

#include "nekahuiro.h"

#include <string.h>

/* Event words by name
 *
 * A number that its field can't hold gives the word 0: a bad event, which is answered 1 and changes nothing.
 * What writes pages carries the count 63: on a device the power goes when it goes.
 */

static inline uint32_t nekahuiro_word(uint32_t kind, uint32_t transaction, uint32_t record, uint32_t offset,
                                      uint32_t count, uint32_t value)
{
    if (kind > 15 || transaction > 31 || record > 15 || offset > 31 || count > 63 || value > 255)
        return 0;
    return kind << 28 | transaction << 23 | record << 19 | offset << 14 | count << 8 | value;
}

/* The parent's number, or NEKAHUIRO_NO_PARENT. The answer's value is the new transaction's number. */
static inline uint32_t nekahuiro_word_begin(uint32_t parent)
{
    return nekahuiro_word(NEKAHUIRO_BEGIN, parent, 0, 0, 0, 0);
}

/* The mode is NEKAHUIRO_WRITE_MODE or NEKAHUIRO_READ_MODE. */
static inline uint32_t nekahuiro_word_lock(uint32_t transaction, uint32_t record, uint32_t mode)
{
    return nekahuiro_word(NEKAHUIRO_LOCK, transaction, record, 0, 0, mode);
}

static inline uint32_t nekahuiro_word_write(uint32_t transaction, uint32_t record, uint32_t offset, uint32_t value)
{
    return nekahuiro_word(NEKAHUIRO_WRITE, transaction, record, offset, 0, value);
}

/* The answer's value is the byte. */
static inline uint32_t nekahuiro_word_read(uint32_t transaction, uint32_t record, uint32_t offset)
{
    return nekahuiro_word(NEKAHUIRO_READ, transaction, record, offset, 0, 0);
}

static inline uint32_t nekahuiro_word_commit(uint32_t transaction)
{
    return nekahuiro_word(NEKAHUIRO_COMMIT, transaction, 0, 0, NEKAHUIRO_NO_CUT, 0);
}

/* The report is NEKAHUIRO_NO_REPORT or NEKAHUIRO_WITH_REPORT. */
static inline uint32_t nekahuiro_word_abort(uint32_t transaction, uint32_t report)
{
    return nekahuiro_word(NEKAHUIRO_ABORT, transaction, 0, 0, 0, report);
}

/* Gives up all that is live; a recover comes next. */
static inline uint32_t nekahuiro_word_crash(void)
{
    return nekahuiro_word(NEKAHUIRO_CRASH, 0, 0, 0, 0, 0);
}

static inline uint32_t nekahuiro_word_recover(void)
{
    return nekahuiro_word(NEKAHUIRO_RECOVER, 0, 0, 0, NEKAHUIRO_NO_CUT, 0);
}

static inline uint32_t nekahuiro_word_prepare(uint32_t transaction, uint32_t identity)
{
    return nekahuiro_word(NEKAHUIRO_PREPARE, transaction, 0, 0, NEKAHUIRO_NO_CUT, identity);
}

/* The decision is NEKAHUIRO_DECIDE_COMMIT or NEKAHUIRO_DECIDE_ABORT. */
static inline uint32_t nekahuiro_word_decide(uint32_t decision, uint32_t identity)
{
    return nekahuiro_word(NEKAHUIRO_DECIDE, 0, 0, decision, NEKAHUIRO_NO_CUT, identity);
}

/* The answer's value is 1 if the identity is prepared. */
static inline uint32_t nekahuiro_word_query(uint32_t identity)
{
    return nekahuiro_word(NEKAHUIRO_QUERY, 0, 0, 0, 0, identity);
}

/* The device */

/* Programs one page, 0 to 32, of the medium: 0 once these bytes are there to stay, whatever happens to the
 * power; anything else if they may not be. If that can pass, try again in here: the same page with the same
 * bytes does no harm. */
typedef int nekahuiro_program(void *medium, uint8_t page, const uint8_t bytes[NEKAHUIRO_PAGE_BYTES]);

/* A page write failed. An answer's number beside those of nekahuiro.h; its value is how many page writes of
 * the event were made before.
 *
 * It counts as a power cut. All that is live is lost, the medium is left alone, and whether the page that
 * failed is on it isn't known. So the device takes nothing any more, and answers this, until the medium has
 * been read again for nekahuiro_device_start, or is laid down anew. Where a commit fails so, its transaction
 * survives as a whole or not at all, and what the start finds says which. */
#define NEKAHUIRO_MEDIUM_FAILED 255

/* All that is kept in memory, some 10 KB. Read any field; nekahuiro_age takes `store`. */
typedef struct nekahuiro_device {
    nekahuiro_program *program;
    void *medium;   /* what `program` is called with */
    uint8_t failed; /* 1 after a page write that failed */
    nekahuiro_state state;
    uint8_t store[NEKAHUIRO_STORE_BYTES]; /* the copy of the medium */
    uint8_t work[NEKAHUIRO_WORK_BYTES];
} nekahuiro_device;

/* The answer to an event (NEKAHUIRO_DONE and so on), a refusal of the whole call, or NEKAHUIRO_MEDIUM_FAILED. */
typedef struct nekahuiro_answer {
    uint8_t number;
    uint8_t value;
} nekahuiro_answer;

static inline nekahuiro_answer nekahuiro_answer_of(uint8_t number, uint8_t value)
{
    nekahuiro_answer answer;

    answer.number = number;
    answer.value = value;
    return answer;
}

/* As after a power cut: nothing is live, and the medium has to be read. */
static inline nekahuiro_answer nekahuiro_device_fail(nekahuiro_device *device, uint8_t made)
{
    memset(&device->state, 0, sizeof device->state);
    device->failed = 1;
    return nekahuiro_answer_of(NEKAHUIRO_MEDIUM_FAILED, made);
}

/* Plays one event through to the medium, of any kind: its page writes first, one by one in their order, then
 * the event on the copy. A refused event writes no page and changes nothing. The count of what writes pages is
 * set to 63, whatever the word has. */
static inline nekahuiro_answer nekahuiro_device_play(nekahuiro_device *device, uint32_t word)
{
    uint32_t kind = word >> 28;
    uint8_t event[NEKAHUIRO_EVENT_BYTES], answer[NEKAHUIRO_ANSWER_BYTES], write[NEKAHUIRO_PAGE_WRITE_BYTES];
    uint8_t index, refused;

    if (device->failed)
        return nekahuiro_answer_of(NEKAHUIRO_MEDIUM_FAILED, 0);
    if (kind == NEKAHUIRO_COMMIT || kind == NEKAHUIRO_RECOVER || kind == NEKAHUIRO_PREPARE || kind == NEKAHUIRO_DECIDE)
        word |= (uint32_t)NEKAHUIRO_NO_CUT << 8;
    for (index = 0; index < NEKAHUIRO_EVENT_BYTES; index++)
        event[index] = (uint8_t)(word >> (24 - 8 * index));
    for (index = 0;; index++) {
        refused = nekahuiro_page_write(&device->state, device->store, sizeof device->store, event, sizeof event,
                                       device->work, sizeof device->work, index, write, sizeof write);
        if (refused)
            break;
        if (device->program(device->medium, write[0], write + 1))
            return nekahuiro_device_fail(device, index);
    }
    if (refused == NEKAHUIRO_NO_SUCH_WRITE)
        refused = nekahuiro_portion(&device->state, device->store, sizeof device->store, event, sizeof event,
                                    device->work, sizeof device->work, answer, sizeof answer);
    return refused ? nekahuiro_answer_of(refused, 0) : nekahuiro_answer_of(answer[0], answer[1]);
}

/* The power has come on: takes the bytes that the medium holds, and recovers. NEKAHUIRO_DONE with the page
 * writes of the recovery; NEKAHUIRO_DAMAGED if page 0 can't be read, and then nothing is written; or
 * NEKAHUIRO_MEDIUM_FAILED. `bytes` may be the device's own `store`; whatever else the device was has no effect. */
static inline nekahuiro_answer nekahuiro_device_start(nekahuiro_device *device, nekahuiro_program *program, void *medium,
                                                      const uint8_t bytes[NEKAHUIRO_STORE_BYTES])
{
    device->program = program;
    device->medium = medium;
    device->failed = 0;
    memset(&device->state, 0, sizeof device->state);
    memmove(device->store, bytes, sizeof device->store);
    return nekahuiro_device_play(device, nekahuiro_word_recover());
}

/* Lays down a fresh store on a medium that may hold anything, and starts. All that was there is lost. Page 0
 * comes first, as zeros, so that it can't be read until all others are blank; then pages 1 to 32; then page 0
 * as the empty commit page: 34 page writes. Cut by the power, the medium is as it was, or its start is answered
 * NEKAHUIRO_DAMAGED with a page 0 of zeros, or it is fresh; laying down again mends it. NEKAHUIRO_DONE, or
 * NEKAHUIRO_MEDIUM_FAILED with the page writes made before. */
static inline nekahuiro_answer nekahuiro_device_lay(nekahuiro_device *device, nekahuiro_program *program, void *medium)
{
    static const uint8_t zeros[NEKAHUIRO_PAGE_BYTES] = {0};
    uint8_t page, pages = NEKAHUIRO_STORE_BYTES / NEKAHUIRO_PAGE_BYTES;

    nekahuiro_fresh(device->store, sizeof device->store);
    if (program(medium, 0, zeros))
        return nekahuiro_device_fail(device, 0);
    for (page = 1; page < pages; page++)
        if (program(medium, page, device->store + page * NEKAHUIRO_PAGE_BYTES))
            return nekahuiro_device_fail(device, page);
    if (program(medium, 0, device->store))
        return nekahuiro_device_fail(device, pages);
    return nekahuiro_device_start(device, program, medium, device->store);
}

/* Plays one event on a device of any kind. */
typedef nekahuiro_answer nekahuiro_player(void *device, uint32_t word);

/* The record of nekahuiro_device_put, on any device. */
static inline nekahuiro_answer nekahuiro_put_by(nekahuiro_player *play, void *device, uint32_t transaction,
                                                uint32_t record, const uint8_t bytes[NEKAHUIRO_PAGE_BYTES])
{
    nekahuiro_answer got = play(device, nekahuiro_word_lock(transaction, record, NEKAHUIRO_WRITE_MODE));
    uint32_t offset;

    for (offset = 0; got.number == NEKAHUIRO_DONE && offset < NEKAHUIRO_PAGE_BYTES; offset++)
        got = play(device, nekahuiro_word_write(transaction, record, offset, bytes[offset]));
    return got;
}

/* The record of nekahuiro_device_get, on any device. */
static inline nekahuiro_answer nekahuiro_get_by(nekahuiro_player *play, void *device, uint32_t transaction,
                                                uint32_t record, uint8_t bytes[NEKAHUIRO_PAGE_BYTES])
{
    nekahuiro_answer got = play(device, nekahuiro_word_lock(transaction, record, NEKAHUIRO_READ_MODE));
    uint8_t page[NEKAHUIRO_PAGE_BYTES];
    uint32_t offset;

    for (offset = 0; got.number == NEKAHUIRO_DONE && offset < NEKAHUIRO_PAGE_BYTES; offset++) {
        got = play(device, nekahuiro_word_read(transaction, record, offset));
        page[offset] = got.value;
    }
    if (got.number == NEKAHUIRO_DONE)
        memcpy(bytes, page, sizeof page);
    return nekahuiro_answer_of(got.number, 0);
}

static inline nekahuiro_answer nekahuiro_device_player(void *device, uint32_t word)
{
    return nekahuiro_device_play((nekahuiro_device *)device, word);
}

/* Writes a whole record for a transaction: locks it to write, then its 32 bytes. Nothing reaches the medium
 * before the commit. NEKAHUIRO_DONE, or why not, and then no byte is written. */
static inline nekahuiro_answer nekahuiro_device_put(nekahuiro_device *device, uint32_t transaction, uint32_t record,
                                                    const uint8_t bytes[NEKAHUIRO_PAGE_BYTES])
{
    return nekahuiro_put_by(nekahuiro_device_player, device, transaction, record, bytes);
}

/* Reads a whole record for a transaction: locks it to read, then its 32 bytes. NEKAHUIRO_DONE, or why not, and
 * then `bytes` is untouched. */
static inline nekahuiro_answer nekahuiro_device_get(nekahuiro_device *device, uint32_t transaction, uint32_t record,
                                                    uint8_t bytes[NEKAHUIRO_PAGE_BYTES])
{
    return nekahuiro_get_by(nekahuiro_device_player, device, transaction, record, bytes);
}

#endif
