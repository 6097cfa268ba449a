/* examples/c/flash.c with the first thing that one would write, and wrong: a commit in one call, and then the pages that
 * differ, in page order. Killed at the wrong moment, it leaves a new time beside an old list: the test that kills
 * devices must find that. */

#define _XOPEN_SOURCE 700

#include "nekahuiro_device.h"

static int nowhere(void *medium, uint8_t page, const uint8_t *bytes)
{
    (void)medium, (void)page, (void)bytes;
    return 0;
}

static nekahuiro_answer in_page_order(nekahuiro_device *device, uint32_t word)
{
    static uint8_t before[NEKAHUIRO_STORE_BYTES];
    nekahuiro_program *program = device->program;
    nekahuiro_answer answer;

    memcpy(before, device->store, sizeof before);
    device->program = nowhere;
    answer = nekahuiro_device_play(device, word);
    device->program = program;
    for (int at = 0; at < NEKAHUIRO_STORE_BYTES; at += NEKAHUIRO_PAGE_BYTES)
        if (memcmp(before + at, device->store + at, NEKAHUIRO_PAGE_BYTES)
            && program(device->medium, (uint8_t)(at / NEKAHUIRO_PAGE_BYTES), device->store + at))
            return nekahuiro_device_fail(device, 0);
    return answer;
}

#define nekahuiro_device_play in_page_order
#include "../../examples/c/flash.c"
