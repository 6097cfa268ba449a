/* Nekahuiro on pages that can tear: edition 1's records, each page kept as two copies.
 *
 * Link target/staticlib/libnekahuiro_pairs.a, which `tools/archives nekahuiro_pairs` makes; beside it
 * libnekahuiro.a, if functions of nekahuiro.h are called too: one program may have both. What a caller owes
 * to every function is said there; so are the events, the rules of locks, the lent state, the working buffer,
 * the answers and their numbers. Below stands only what differs.
 *
 * `nekahuiro_run_pairs` plays a whole list; `nekahuiro_portion_pairs` plays events as they come, on a state
 * that the caller keeps; `nekahuiro_page_write_pairs` says before an event which copies it writes, and
 * nekahuiro_device_pairs.h brings them to a medium. There are no prepare, decide and query.
 */
#ifndef NEKAHUIRO_PAIRS_H
#define NEKAHUIRO_PAIRS_H

#include "nekahuiro.h"

#ifdef __cplusplus
extern "C" {
#endif

/* A copy of a page: its status, then NEKAHUIRO_PAGE_BYTES. */
#define NEKAHUIRO_PAIRS_COPY_BYTES 33
/* A page: its first copy, then its second. */
#define NEKAHUIRO_PAIRS_PAIR_BYTES 66
/* A store: 33 pages. */
#define NEKAHUIRO_PAIRS_STORE_BYTES 2178
/* The status of a copy. Any other than 1 counts as bad. */
#define NEKAHUIRO_PAIRS_GOOD 1
#define NEKAHUIRO_PAIRS_BAD 0

/* The store, pair after pair in the order of edition 1's pages: page n begins at byte 66 n.
 *
 *   status, 32 bytes, status, 32 bytes
 *
 * A page is what its first good copy says, also where the second is good and says something else. The commit
 * page is edition 1's; one with the state prepared is damaged.
 */

/* The event word is edition 1's, with one more use of its value: in a commit and a recover it says how the
 * page write after those that the count allows is torn. Where the count cuts nothing, it has no effect.
 * A value above 3 is bad (1), and so are kinds 9 to 11. */
#define NEKAHUIRO_PAIRS_NOT_TORN 0   /* the power goes between two page writes */
#define NEKAHUIRO_PAIRS_FIRST_BAD 1  /* the first copy is left bad, with its old bytes; the second stays */
#define NEKAHUIRO_PAIRS_SECOND_BAD 2 /* the first copy is new, the second left bad with its old bytes */
#define NEKAHUIRO_PAIRS_SECOND_OLD 3 /* the first copy is new, the second stays */

/* In the last two cases the torn page write counts as made: in the answer's value, and for the commit record.
 * So a commit that is cut at its last page write may be answered 11 with the value of all its page writes.
 *
 * A recover mends the store before its first page write: each page has its first good copy twice then, with
 * status 1. Mending is neither cut nor counted. Where any of the 33 pages has no good copy, or page 0 is
 * damaged, a recover is refused with 4, and nothing is mended.
 */

/* Plays the events in order on the store and writes one answer each, as nekahuiro_run does.
 *
 * Answers 0 if the events were played, whatever their own answers are. Else, tried in this order and with no
 * buffer touched: 22, store_size isn't NEKAHUIRO_PAIRS_STORE_BYTES; 24, 20, 21, as nekahuiro_run. */
uint8_t nekahuiro_run_pairs(uint8_t *store, size_t store_size,
                            const uint8_t *events, size_t events_size,
                            uint8_t *work, size_t work_size,
                            uint8_t *answers, size_t answers_size);

/* Plays a portion of events on a lent state, as nekahuiro_portion does: the state is laid out as there, and is
 * sound by the same words but the last. While up every page is a pair of good copies that are alike, and page 0
 * is empty; while down the store may be anything.
 *
 * Answers 0 if the events were played, whatever their own answers are. Else, tried in this order and with
 * nothing changed, the state included: 22, 24, 20, 21, 25. */
uint8_t nekahuiro_portion_pairs(nekahuiro_state *state,
                                uint8_t *store, size_t store_size,
                                const uint8_t *events, size_t events_size,
                                uint8_t *work, size_t work_size,
                                uint8_t *answers, size_t answers_size);

/* The copy writes of an event, one by one, before it is played
 *
 * As nekahuiro_page_write, but the power may go within a write to the medium too, and what is written is one
 * copy of a page: page write i of the event is copy write 2i, its first copy, and then 2i + 1, its second.
 * Program them in this order, each with status 1 once it is whole, and begin none before the last is there to
 * stay. Wherever the power goes among them, the medium holds what the same event leaves with a count and a
 * value: behind 2i copy writes count i with value 0, within the next one value 1; behind 2i + 1 value 3, within
 * the next value 2.
 *
 * Mending isn't among the copy writes of a recover: who brings them to a medium mends its pages first, unless
 * the recover is refused. A page whose first copy is good gets that as its second copy, any other page its
 * second copy as its first.
 *
 *   state, store, work  read only: as they stand before the event is played
 *   event               read only: one event word; its count and, in a commit or a recover, its value up to 3
 *                       are left aside
 *   index               the number of the copy write, from 0
 *   write               NEKAHUIRO_PAIRS_COPY_WRITE_BYTES: the page's number, 0 for the first copy or 1 for the
 *                       second, then the page's 32 bytes
 *
 * Answers 0 and writes the copy write; or 12 with nothing written where the event makes no such copy write: it
 * makes fewer, is refused, or is of a kind that makes none. Else, tried in this order and with nothing written:
 * 22; 24; 20, event_size isn't 4; 21, write_size isn't NEKAHUIRO_PAIRS_COPY_WRITE_BYTES; 25. Nothing is played,
 * and nothing but `write` is ever written. */
#define NEKAHUIRO_PAIRS_COPY_WRITE_BYTES 34
#define NEKAHUIRO_PAIRS_FIRST_COPY 0
#define NEKAHUIRO_PAIRS_SECOND_COPY 1
uint8_t nekahuiro_page_write_pairs(const nekahuiro_state *state,
                                   const uint8_t *store, size_t store_size,
                                   const uint8_t *event, size_t event_size,
                                   const uint8_t *work, size_t work_size,
                                   uint8_t index, uint8_t *write, size_t write_size);

/* Lays down a fresh store: an empty commit page and zeros elsewhere, all copies good.
 * Answers 0, or 22 with nothing written. */
uint8_t nekahuiro_fresh_pairs(uint8_t *store, size_t store_size);

/* How old a record is, as nekahuiro_age tells it: answers 0 live, 1 ahead or 2 stale, and writes the age.
 * Else, tried in this order and with nothing written: 22; 23; 4, any of the 33 pages has no good copy, or page 0
 * is damaged. The store is only read: a torn page stays as it is. */
uint8_t nekahuiro_age_pairs(const uint8_t *store, size_t store_size, uint8_t record,
                            uint32_t clock, uint32_t limit, int64_t *age);

#ifdef __cplusplus
}
#endif

#endif
