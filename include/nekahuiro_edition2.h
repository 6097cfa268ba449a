/* Nekahuiro, edition 2: the same record store with sixty-four records.
 *
 * Link target/staticlib/libnekahuiro_edition2.a, which `tools/archives nekahuiro_edition2` makes; beside it
 * libnekahuiro.a, if functions of nekahuiro.h are called too: one program may have both. What a caller owes
 * to every function is said there, with NEKAHUIRO_EDITION2_STACK_BYTES of free stack here; so are the events,
 * the rules of locks, the answers and their numbers. Below stands only what differs.
 *
 * Edition 2 has no prepare, decide and query and no portions. Its page writes are told one by one after a
 * list, nekahuiro_page_write_edition2.
 */
#ifndef NEKAHUIRO_EDITION2_H
#define NEKAHUIRO_EDITION2_H

#include "nekahuiro.h"

#ifdef __cplusplus
extern "C" {
#endif

/* Records in a store, numbered from 0. A record is one page of NEKAHUIRO_PAGE_BYTES long. */
#define NEKAHUIRO_EDITION2_RECORDS 64
/* A store: 129 pages. */
#define NEKAHUIRO_EDITION2_STORE_BYTES 4128
/* The working buffer. */
#define NEKAHUIRO_EDITION2_WORK_BYTES 32768
/* An event word. */
#define NEKAHUIRO_EDITION2_EVENT_BYTES 8
/* The longest list: NEKAHUIRO_EVENTS events. */
#define NEKAHUIRO_EDITION2_LIST_BYTES 32768
/* A count with which no power cut comes: the longest commit makes 130 page writes. */
#define NEKAHUIRO_EDITION2_NO_CUT 255
/* More stack than any call here uses. */
#define NEKAHUIRO_EDITION2_STACK_BYTES 16384

/* The store, page by page
 *
 *   page 0        the commit page
 *   page 1 + r    the intention page of record r
 *   page 65 + r   the home page of record r
 *
 * The commit page, bits most significant first: edition 4 bits, always 2; state 4 bits, 0 empty or
 * 5 committed; map 64 bits, record 0 first; count 7 bits, the ones in the map; 177 zero bits. Empty has map
 * and count 0 (20 00 ..), committed has a map that isn't 0 (records 0 and 3: 25 90 00 00 00 00 00 00 00 04 00 ..,
 * all records: 25 FF FF FF FF FF FF FF FF 80 00 ..). Any other page 0 is damaged, also one of edition 1 and
 * one with the state prepared.
 */

/* The event word, most significant bit first
 *
 *   kind 4 bits, transaction 5, record 6, offset 5, count 8, value 8, then 28 zero bits
 *
 * Kinds 1 to 8 are those of edition 1 and use the same fields. All other kinds are bad, 9 to 11 too, and so
 * is a word with one of its last 28 bits set (1).
 */

/* Plays the events in order on the store and writes one answer of two bytes each, as nekahuiro_run does.
 *
 * Answers 0 if the events were played, whatever their own answers are. Else, tried in this order and with
 * no buffer touched: 22, store_size isn't NEKAHUIRO_EDITION2_STORE_BYTES; 24, work_size isn't
 * NEKAHUIRO_EDITION2_WORK_BYTES; 20, events_size isn't a multiple of 8, or above
 * NEKAHUIRO_EDITION2_LIST_BYTES; 21, answers_size is below two bytes an event.
 */
uint8_t nekahuiro_run_edition2(uint8_t *store, size_t store_size,
                               const uint8_t *events, size_t events_size,
                               uint8_t *work, size_t work_size,
                               uint8_t *answers, size_t answers_size);

/* Says the page write number `index`, from 0, that an event makes after a list, if nothing cuts it: for a
 * device that programs its medium page by page and in this order (docs/DEVICE.md).
 *
 * The list is played as nekahuiro_run_edition2 plays it, on the store, the working buffer and the answer
 * buffer, which are left as that run leaves them: lend a copy of the store. The event, one word of 8 bytes,
 * is asked about on the state that the list leaves, and isn't played; its count counts for nothing.
 *
 * Answers 0 and leaves in `write` the page's number and its 32 bytes; or 12, no such write: the event is
 * refused or writes fewer pages, and `write` is untouched. Else, with no buffer touched: 22, 24, 20, 21, as
 * nekahuiro_run_edition2; then 20, event_size isn't NEKAHUIRO_EDITION2_EVENT_BYTES; 21, write_size isn't
 * NEKAHUIRO_PAGE_WRITE_BYTES.
 */
uint8_t nekahuiro_page_write_edition2(uint8_t *store, size_t store_size,
                                      const uint8_t *events, size_t events_size,
                                      uint8_t *work, size_t work_size,
                                      uint8_t *answers, size_t answers_size,
                                      const uint8_t *event, size_t event_size,
                                      uint8_t index, uint8_t *write, size_t write_size);

/* Lays down a fresh store: an empty commit page and zeros elsewhere.
 * Answers 0, or 22 with nothing written. */
uint8_t nekahuiro_fresh_edition2(uint8_t *store, size_t store_size);

/* How old a record is, as nekahuiro_age tells it: answers 0 live, 1 ahead or 2 stale, and writes the age.
 * Else, tried in this order and with nothing written: 22; 23, the record is above 63; 4, page 0 is damaged.
 * An age of record 64 is 23. */
uint8_t nekahuiro_age_edition2(const uint8_t *store, size_t store_size, uint8_t record,
                               uint32_t clock, uint32_t limit, int64_t *age);

#ifdef __cplusplus
}
#endif

#endif
