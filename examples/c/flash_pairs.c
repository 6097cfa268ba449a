/* The device of flash.c on a medium that tears: its file has every page as two copies, each with a status. While a copy
 * is written it is bad, in the file too; so a kill or a power cut within a write leaves it bad, and the other copy of
 * that page is good.
 * Build at the root of the repository:
 *   cc -Wall -Wextra -Werror -Iinclude examples/c/flash_pairs.c target/staticlib/libnekahuiro_pairs.a -o flash_pairs
 *   ./flash_pairs FILE REFRESHES
 * The exit status is that of flash.c; 4 also if a page has no good copy. */

#define _XOPEN_SOURCE 700
#define PROGRAM "flash_pairs"

#include "nekahuiro_device_pairs.h"
#include "refresh.h"

static nekahuiro_device_pairs device;

/* The medium, laid out as the library's store: where a write can tear, something has to tell that it did. Hardware with
 * a checksum for each write does; here it is the status, which says bad until the bytes are there to stay. */
static int program(void *medium, uint8_t page, uint8_t copy, const uint8_t *bytes)
{
    static const uint8_t bad = NEKAHUIRO_PAIRS_BAD, good = NEKAHUIRO_PAIRS_GOOD;
    long at = page * NEKAHUIRO_PAIRS_PAIR_BYTES + copy * NEKAHUIRO_PAIRS_COPY_BYTES;
    int file = *(int *)medium;

    return program_bytes(file, &bad, 1, at) || program_bytes(file, bytes, NEKAHUIRO_PAGE_BYTES, at + 1)
           || program_bytes(file, &good, 1, at);
}

/* Lays down a store where there is none yet: the file is new, or laying down was cut, and then page 0 shows zeros, or
 * nothing of it was ever good. Anything else that can't be read isn't overwritten: somebody has to look at it. */
static nekahuiro_answer start(int *file)
{
    static uint8_t bytes[NEKAHUIRO_PAIRS_STORE_BYTES + 1], zeros[NEKAHUIRO_PAGE_BYTES];
    size_t length = read_medium(*file, bytes, NEKAHUIRO_PAIRS_STORE_BYTES);
    const uint8_t *second = bytes + NEKAHUIRO_PAIRS_COPY_BYTES;
    const uint8_t *shown = bytes[0] == NEKAHUIRO_PAIRS_GOOD ? bytes : second;

    if (memcmp(shown + 1, zeros, sizeof zeros) == 0) {
        puts("laying down a fresh store");
        return nekahuiro_device_pairs_lay(&device, program, file);
    }
    if (length < NEKAHUIRO_PAIRS_STORE_BYTES)
        stop(4, "the file is no store");
    return nekahuiro_device_pairs_start(&device, program, file, bytes);
}

static nekahuiro_answer play(uint32_t word)
{
    return nekahuiro_device_pairs_play(&device, word);
}

static nekahuiro_answer put(uint32_t transaction, uint32_t record, const uint8_t *bytes)
{
    return nekahuiro_device_pairs_put(&device, transaction, record, bytes);
}

static nekahuiro_answer get(uint32_t transaction, uint32_t record, uint8_t *bytes)
{
    return nekahuiro_device_pairs_get(&device, transaction, record, bytes);
}

static uint8_t age_of(uint8_t record, uint32_t clock, uint32_t limit, int64_t *age)
{
    return nekahuiro_age_pairs(device.store, sizeof device.store, record, clock, limit, age);
}
