/* What flash.c and flash_pairs.c have in common: the file that is the medium, the records that are refreshed together,
 * and the program around them. They define PROGRAM, which is their name, and the five functions declared below. */

#include "nekahuiro_device.h"

#include <errno.h>
#include <fcntl.h>
#include <libgen.h>
#include <stdio.h>
#include <stdlib.h>
#include <time.h>
#include <unistd.h>

/* Of the device: an event played through to the medium; a whole record written, and read; how old a record is, as the
 * library tells it; and the start, over the file. */
static nekahuiro_answer play(uint32_t word);
static nekahuiro_answer put(uint32_t transaction, uint32_t record, const uint8_t *bytes);
static nekahuiro_answer get(uint32_t transaction, uint32_t record, uint8_t *bytes);
static uint8_t age_of(uint8_t record, uint32_t clock, uint32_t limit, int64_t *age);
static nekahuiro_answer start(int *file);

enum { FAULTS, AS_OF, BRAKES, RECORDS };

static const char *const names[RECORDS] = {"fault list", "as-of time", "brake counters"};

static void stop(int status, const char *what)
{
    fprintf(stderr, "%s: %s\n", PROGRAM, what);
    exit(status);
}

/* The file. */

/* Writes bytes to the file, which are there to stay at its end: 0, or else they may not be. */
static int program_bytes(int file, const uint8_t *bytes, size_t length, long at)
{
    ssize_t written;

    do
        written = pwrite(file, bytes, length, at);
    while (written < 0 && errno == EINTR);
    return written != (ssize_t)length || fdatasync(file);
}

/* Opens the file, for this device alone. A new one has a name that outlasts the power only once its folder is on the
 * disk too. */
static int open_medium(char *name)
{
    int file = open(name, O_RDWR | O_CREAT, 0644), folder;

    if (file < 0 || (folder = open(dirname(name), O_RDONLY)) < 0 || fsync(folder))
        stop(3, "the file can't be opened");
    if (lockf(file, F_TLOCK, 0))
        stop(3, "another device is at work on the file");
    close(folder);
    return file;
}

/* Reads the file into a store's bytes; how many it has. */
static size_t read_medium(int file, uint8_t *bytes, size_t size)
{
    ssize_t length = pread(file, bytes, size + 1, 0);

    if (length < 0)
        stop(3, "the file can't be read");
    if ((size_t)length > size)
        stop(4, "the file is no store");
    return (size_t)length;
}

/* The records. */

/* Plays an event that has to be done; the value of its answer. */
static uint8_t need(nekahuiro_answer answer)
{
    if (answer.number == NEKAHUIRO_MEDIUM_FAILED)
        stop(3, "the file can't be written: what is lost and what isn't is told at the next start");
    if (answer.number == NEKAHUIRO_DAMAGED)
        stop(4, "the store is damaged: look at the file before laying down a store anew");
    if (answer.number != NEKAHUIRO_DONE)
        stop(5, "an event was refused that has to be done");
    return answer.value;
}

static uint32_t now(void)
{
    return (uint32_t)(time(NULL) / 60);
}

static void put_number(uint8_t *at, uint32_t number)
{
    for (int i = 0; i < 4; i++)
        at[i] = (uint8_t)(number >> (24 - 8 * i));
}

static uint32_t get_number(const uint8_t *at)
{
    return (uint32_t)at[0] << 24 | (uint32_t)at[1] << 16 | (uint32_t)at[2] << 8 | at[3];
}

/* What a refresh writes to a record: the minute, from which its age is told, the number of the refresh, and then
 * what the truck says, which is made up here. */
static void content(uint8_t page[NEKAHUIRO_PAGE_BYTES], uint32_t record, uint32_t minute, uint32_t refresh)
{
    put_number(page, minute);
    put_number(page + 4, refresh);
    for (uint32_t i = 8; i < NEKAHUIRO_PAGE_BYTES; i++)
        page[i] = (uint8_t)(refresh * 31 + record * 7 + i);
}

/* One record in a transaction of its own. A sensor that doesn't answer ends it halfway, and what it wrote is gone;
 * the refresh then tries again. */
static int child(uint32_t top, uint32_t record, uint32_t minute, uint32_t refresh, int fails)
{
    uint8_t page[NEKAHUIRO_PAGE_BYTES];
    uint32_t own = need(play(nekahuiro_word_begin(top)));

    content(page, record, minute, fails ? refresh + 1000 : refresh);
    need(put(own, record, page));
    need(play(fails ? nekahuiro_word_abort(own, NEKAHUIRO_NO_REPORT) : nekahuiro_word_commit(own)));
    return !fails;
}

static void refresh_all(uint32_t minute, uint32_t refresh)
{
    uint32_t top = need(play(nekahuiro_word_begin(NEKAHUIRO_NO_PARENT)));

    child(top, FAULTS, minute, refresh, 0);
    child(top, AS_OF, minute, refresh, 0);
    if (!child(top, BRAKES, minute, refresh, refresh % 4 == 3))
        child(top, BRAKES, minute, refresh, 0);
    need(play(nekahuiro_word_commit(top)));
}

/* Shows each record with its age; the number of the last refresh, if they are all of one refresh. */
static uint32_t show(uint32_t minute)
{
    static const char *const verdicts[] = {"live", "ahead", "stale"};
    uint8_t pages[RECORDS][NEKAHUIRO_PAGE_BYTES], due[NEKAHUIRO_PAGE_BYTES];
    uint32_t top = need(play(nekahuiro_word_begin(NEKAHUIRO_NO_PARENT)));
    uint32_t stamp = 0, last = 0;

    for (uint8_t record = 0; record < RECORDS; record++) {
        int64_t age = 0;
        uint8_t verdict = age_of(record, minute, 10, &age);

        need(get(top, record, pages[record]));
        stamp = get_number(pages[FAULTS]);
        last = get_number(pages[FAULTS] + 4);
        if (get_number(pages[record] + 4) == 0 || verdict > NEKAHUIRO_STALE)
            printf("%-15s never refreshed\n", names[record]);
        else
            printf("%-15s refresh %u, %s, %lld minutes old\n", names[record],
                   (unsigned)get_number(pages[record] + 4), verdicts[verdict], (long long)age);
    }
    need(play(nekahuiro_word_commit(top)));
    for (uint32_t record = 0; record < RECORDS && last; record++) {
        content(due, record, stamp, last);
        if (memcmp(pages[record], due, sizeof due))
            stop(1, "the records aren't those of one refresh");
    }
    return last;
}

int main(int words, char **word)
{
    char *end = NULL;
    unsigned long left = words == 3 ? strtoul(word[2], &end, 10) : 0;

    if (words != 3 || end == word[2] || *end)
        stop(2, "write `" PROGRAM " FILE REFRESHES`");
    int file = open_medium(word[1]);
    uint8_t writes = need(start(&file));

    printf("recovered with %u page writes\n", writes);
    uint32_t last = show(now());

    fflush(stdout);
    for (; left; left--) {
        refresh_all(now(), ++last);
        printf("refresh %u is on the medium\n", (unsigned)last);
        fflush(stdout);
    }
    return 0;
}
