/* A device whose medium is a file: each page by pwrite and fdatasync. It refreshes a fault list, its as-of time
 * and brake counters together, as children of one transaction, and tells each refresh once it is on the
 * medium. Kill it, or cut the power, whenever you like: started again, it recovers and shows how old its
 * records are, and never a new time beside an old list.
 * Build at the root of the repository:
 *   cc -Wall -Wextra -Werror -Iinclude examples/c/flash.c target/staticlib/libnekahuiro.a -o flash
 *   ./flash FILE REFRESHES
 * The exit status is 0 if all went well, 1 if the records are a mixture, 2 for a wrong call, 3 if the file can't be
 * read or written, 4 if it is no store or its page 0 is damaged, 5 if an event is refused.
 * Where a write can tear, see flash_pairs.c. */

#define _XOPEN_SOURCE 700
#define PROGRAM "flash"

#include "refresh.h"

static nekahuiro_device device;

/* The medium: page n stands at byte 32 n of the file. */
static int program(void *medium, uint8_t page, const uint8_t *bytes)
{
    return program_bytes(*(int *)medium, bytes, NEKAHUIRO_PAGE_BYTES, page * NEKAHUIRO_PAGE_BYTES);
}

/* Lays down a store where there is none yet: the file is new, or laying down was cut, and then page 0 is zeros. A
 * page 0 that is damaged in any other way isn't overwritten: somebody has to look at it. */
static nekahuiro_answer start(int *file)
{
    static uint8_t bytes[NEKAHUIRO_STORE_BYTES + 1], zeros[NEKAHUIRO_PAGE_BYTES];
    size_t length = read_medium(*file, bytes, NEKAHUIRO_STORE_BYTES);

    if (memcmp(bytes, zeros, sizeof zeros) == 0) {
        puts("laying down a fresh store");
        return nekahuiro_device_lay(&device, program, file);
    }
    if (length < NEKAHUIRO_STORE_BYTES)
        stop(4, "the file is no store");
    return nekahuiro_device_start(&device, program, file, bytes);
}

static nekahuiro_answer play(uint32_t word)
{
    return nekahuiro_device_play(&device, word);
}

static nekahuiro_answer put(uint32_t transaction, uint32_t record, const uint8_t *bytes)
{
    return nekahuiro_device_put(&device, transaction, record, bytes);
}

static nekahuiro_answer get(uint32_t transaction, uint32_t record, uint8_t *bytes)
{
    return nekahuiro_device_get(&device, transaction, record, bytes);
}

static uint8_t age_of(uint8_t record, uint32_t clock, uint32_t limit, int64_t *age)
{
    return nekahuiro_age(device.store, sizeof device.store, record, clock, limit, age);
}
