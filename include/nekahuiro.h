/* Nekahuiro: a record store with nested transactions and page-by-page commit, proved in Rattle.
 *
 * Link target/staticlib/libnekahuiro.a, which `tools/archives nekahuiro` makes. The library is for
 * x86-64. It allocates nothing, keeps nothing between calls, and calls at most memcpy, memmove, memset
 * and memcmp of the C library. `nekahuiro_run` plays a whole list; `nekahuiro_portion` plays events as
 * they come, on a state that the caller keeps, and `nekahuiro_page_write` says before an event which pages
 * it writes; nekahuiro_device.h brings them to a medium. `nekahuiro_waiting` shows transactions of such a
 * state that wait on each other. `nekahuiro_depot` and `nekahuiro_vote` are for two ends that commit
 * together. `nekahuiro_sheet` makes a list of a job sheet, which is text; `nekahuiro_audit` says whether a
 * list, its answers and two stores belong together.
 *
 * What a caller owes to every function here:
 *   - Each pointer points to as many bytes as the size after it says, or rows as the count after it
 *     says. No pointer is null, not even where the size or count is 0.
 *   - No two buffers of one call overlap, and nobody else touches them while the call runs. Calls on
 *     different buffers may run at the same time.
 *   - Byte buffers, rows and rings need no alignment; `age` is aligned as an int64_t is, `told` as a
 *     size_t, `place` as a uint16_t, `state` as its struct is.
 *   - At least NEKAHUIRO_STACK_BYTES of stack are free, or NEKAHUIRO_AUDIT_STACK_BYTES for an audit.
 * Buffers stay the caller's, and their contents may be anything. What each call answers and leaves in
 * every buffer is proved for all contents and all sizes: see docs/PROMISES.md. docs/FORMAT.md has the
 * formats byte by byte.
 */
#ifndef NEKAHUIRO_H
#define NEKAHUIRO_H

#include <stddef.h>
#include <stdint.h>

#ifdef __cplusplus
extern "C" {
#endif

/* Sizes and limits. */

/* A page: what one write to stable storage writes, all or nothing. */
#define NEKAHUIRO_PAGE_BYTES 32
/* Records in a store, numbered from 0. A record is one page long. */
#define NEKAHUIRO_RECORDS 16
/* A store: 33 pages. */
#define NEKAHUIRO_STORE_BYTES 1056
/* The working buffer. */
#define NEKAHUIRO_WORK_BYTES 8192
/* Transactions live at a time, numbered from 0. */
#define NEKAHUIRO_TRANSACTIONS 24
/* The deepest nesting; a top transaction has depth 1. */
#define NEKAHUIRO_DEPTH_LIMIT 16
/* An event word. */
#define NEKAHUIRO_EVENT_BYTES 4
/* Events in the longest list or portion. */
#define NEKAHUIRO_EVENTS 4096
/* The longest list, and the least output for a job sheet. */
#define NEKAHUIRO_LIST_BYTES 16384
/* An answer. */
#define NEKAHUIRO_ANSWER_BYTES 2
/* A lent state, see nekahuiro_state. */
#define NEKAHUIRO_STATE_BYTES 468
/* Waiting rows that a report takes, see nekahuiro_waiting. */
#define NEKAHUIRO_ROWS 24
/* More stack than any call uses, and than nekahuiro_audit does, which keeps its tables there. */
#define NEKAHUIRO_STACK_BYTES 16384
#define NEKAHUIRO_AUDIT_STACK_BYTES 32768

/* The store, page by page
 *
 *   page 0        the commit page
 *   page 1 + r    the intention page of record r
 *   page 17 + r   the home page of record r
 *
 * The commit page, bits most significant first: edition 4 bits, always 1; state 4 bits, 0 empty,
 * 3 prepared or 5 committed; map 16 bits, record 0 first; count 5 bits, the ones in the map; 3 zero
 * bits; the identity in the fifth byte where the state is prepared, else a zero byte; 27 zero bytes.
 * Empty has map and count 0 (10 00 00 00 00 ..), prepared and committed have a map that isn't 0
 * (records 0 and 3: 13 90 00 10 2A .. with identity 2A, 15 90 00 10 00 ..). Any other page 0 is damaged.
 *
 * A record's settled value is its intention page where a committed map names it, else its home page:
 * what is only prepared isn't settled.
 * A store can be put away after any call and handed in again at any time.
 */

/* The event word, most significant bit first
 *
 *   kind 4 bits, transaction 5, record 4, offset 5, count 6, value 8
 *
 *   kind  event           fields used; all others must be 0
 *    1    begin           transaction: the parent, 31 for none
 *    2    lock            transaction, record, value: the mode, 0 to write or 1 to read
 *    3    write one byte  transaction, record, offset, value
 *    4    read one byte   transaction, record, offset
 *    5    commit          transaction, count
 *    6    abort           transaction, value: 0, or 1 with a report
 *    7    crash           none
 *    8    recover         count
 *    9    prepare         transaction, count, value: the identity
 *   10    decide          offset: 1 to commit, 0 to abort; count, value: the identity
 *   11    query           value: the identity
 *
 * This is edition 1, the edition that has kinds 9 to 11 and the state prepared.
 *
 * The count says when the power goes: a commit, recover, prepare or decide makes that many page writes
 * and is then cut by a crash. A count of at least the writes due, such as 63, means no cut. A top
 * transaction that changed n records makes 2n + 2 page writes, or none if n is 0, and survives a cut
 * after n + 1.
 *
 * A lock in write mode lets its holder read and write, one in read mode only read, beside other
 * readers. Read mode is granted if no other holds in write mode and every write-mode retainer is the
 * asker or its ancestor; write mode if no other holds in any mode and every retainer is the asker or
 * its ancestor. A held read lock is raised by asking for write mode; asking for less than is held
 * changes nothing. When a child commits, its parent retains each lock that the child held or retained,
 * in the strongest of these modes and its own.
 *
 * An abort ends the transaction and all its live descendants; their versions go and their locks are
 * discarded. With a report, which may tell the parent what was read, the parent retains each lock that
 * the transaction itself held or retained, in the strongest of these modes and its own; the locks of its
 * descendants are discarded as before, and a top transaction has no parent and discards.
 *
 * A prepare ends a top transaction, whose changes then wait for the decision on its identity. Where it
 * changed n records it makes n + 1 page writes: the intention pages, then the commit page as prepared. The
 * changed records stay locked for everybody, also through crashes, until the decision; its other locks
 * are released. One that changed nothing just commits, with no page write. A recover over a prepared page
 * makes no page write and comes up.
 *
 * A decide with the identity that is prepared commits with n + 2 page writes (the commit page as
 * committed, the home pages, the commit page as empty) or aborts with 1 (the commit page as empty); its
 * decision is stored with the first of these. With any other identity it does nothing and is answered 0
 * with value 0. A query is answered 0, with value 1 if its identity is prepared, else 0.
 */
#define NEKAHUIRO_BEGIN 1
#define NEKAHUIRO_LOCK 2
#define NEKAHUIRO_WRITE 3
#define NEKAHUIRO_READ 4
#define NEKAHUIRO_COMMIT 5
#define NEKAHUIRO_ABORT 6
#define NEKAHUIRO_CRASH 7
#define NEKAHUIRO_RECOVER 8
#define NEKAHUIRO_PREPARE 9
#define NEKAHUIRO_DECIDE 10
#define NEKAHUIRO_QUERY 11
#define NEKAHUIRO_NO_PARENT 31
#define NEKAHUIRO_NO_CUT 63
#define NEKAHUIRO_WRITE_MODE 0
#define NEKAHUIRO_READ_MODE 1
#define NEKAHUIRO_NO_REPORT 0
#define NEKAHUIRO_WITH_REPORT 1
#define NEKAHUIRO_DECIDE_ABORT 0
#define NEKAHUIRO_DECIDE_COMMIT 1

/* The answer to an event: a number, then a value. The value is the new transaction's number for
 * begin, the byte for read, the page writes made for commit, recover, prepare and decide (also when
 * cut), 1 for a query of what is prepared, else 0. A refused event (1 to 10, 13, 14 and 27) changes
 * nothing but its answer. The first reason that holds is given, in the order of the numbers, but 14 is
 * tried after 5.
 */
#define NEKAHUIRO_DONE 0           /* done */
#define NEKAHUIRO_BAD_EVENT 1      /* kind 0 or 12 to 15, an unused field isn't 0, or no such value */
#define NEKAHUIRO_DOWN 2           /* down, and the event is neither recover nor crash */
#define NEKAHUIRO_UP 3             /* recover while up */
#define NEKAHUIRO_DAMAGED 4        /* recover or age, and page 0 is damaged */
#define NEKAHUIRO_NOT_LIVE 5       /* the named transaction isn't live */
#define NEKAHUIRO_TOO_DEEP 6       /* begin under a parent at the depth limit */
#define NEKAHUIRO_TOO_MANY 7       /* begin with every transaction number taken */
#define NEKAHUIRO_NOT_GRANTABLE 8  /* the lock can't be granted in this mode, or what is prepared has it */
#define NEKAHUIRO_NOT_HELD 9       /* read without holding the lock, or write without holding it to write */
#define NEKAHUIRO_LIVE_CHILD 10    /* commit or prepare with a live child */
#define NEKAHUIRO_CUT 11           /* no refusal: cut by a crash in commit, recover, prepare or decide */
#define NEKAHUIRO_NO_SUCH_WRITE 12 /* of nekahuiro_page_write and its likes alone: the event makes no such page write */
#define NEKAHUIRO_ONE_PREPARED 13  /* prepare or top commit with a changed record, and one is prepared */
#define NEKAHUIRO_CHILD_AT_WORK 14 /* lock, read or write by a transaction with a live child */
#define NEKAHUIRO_NOT_TAKEN 27     /* prepare by a child; in nekahuiro_depot: no such turn */

/* Refusals of a whole call: no buffer is touched. */
#define NEKAHUIRO_BAD_LIST 20      /* events_size isn't a multiple of 4, or above 16384; event_size isn't 4 */
#define NEKAHUIRO_SHORT_ANSWERS 21 /* answers_size is below two bytes an event; write_size isn't 33 */
#define NEKAHUIRO_BAD_STORE 22     /* store_size isn't NEKAHUIRO_STORE_BYTES */
#define NEKAHUIRO_BAD_RECORD 23    /* the record, or that of a waiting row, is above 15 */
#define NEKAHUIRO_BAD_WORK 24      /* work_size isn't NEKAHUIRO_WORK_BYTES */
#define NEKAHUIRO_BAD_STATE 25     /* the state isn't sound, or its bytes encode no state */
#define NEKAHUIRO_MANY_ROWS 26     /* there are more than NEKAHUIRO_ROWS waiting rows */
#define NEKAHUIRO_SHORT_LIST 28    /* in nekahuiro_sheet: list_size is below NEKAHUIRO_LIST_BYTES */
#define NEKAHUIRO_BAD_SHEET 29     /* in nekahuiro_sheet: no sheet that is taken; its place is told */

/* Plays the events in order on the store and writes one answer each.
 *
 * A run starts down: only a recover that finishes brings it up. Transactions still live at the end
 * of the list are lost, as in a crash.
 *
 *   store    read and written
 *   events   read only; an empty list is fine
 *   work     written; what it held before has no effect, what it holds after has no meaning
 *   answers  two bytes an event are written; bytes past the last event stay
 *
 * Answers 0 if the events were played, whatever their own answers are. Else, tried in this order and
 * with no buffer touched: 22, 24, 20, 21.
 */
uint8_t nekahuiro_run(uint8_t *store, size_t store_size,
                      const uint8_t *events, size_t events_size,
                      uint8_t *work, size_t work_size,
                      uint8_t *answers, size_t answers_size);

/* The state between two portions of events: integers only, no padding.
 *
 * All zeros is the start: down, and nothing live. Nothing else has to be known to use it, since
 * nekahuiro_portion keeps it. It may be copied and put away, together with the store and the working
 * buffer that were left with it. A set of transactions has bit 1 << t for transaction t.
 *
 * A state is sound if, for every live transaction t (its depth isn't 0): its parent is live and its
 * depth one more than the parent's, or its parent is NEKAHUIRO_NO_PARENT and its depth 1; the depth is
 * at most NEKAHUIRO_DEPTH_LIMIT; its line is right. For every record: only live transactions hold,
 * retain or have versions; who holds or retains in write mode also does in any mode; of a retainer and
 * a write-mode retainer one is the other or its ancestor; each holder is each write-mode retainer or
 * beneath it; a write-mode holder is the only holder, and is each retainer or beneath it; who has a
 * version holds or retains in write mode. While down nothing is live; while up page 0 is empty, or
 * prepared and nobody holds or retains the lock of a record in its map. Entries of free numbers and the
 * spare bytes are 0.
 */
typedef struct nekahuiro_state {
    uint32_t line[NEKAHUIRO_TRANSACTIONS];    /* of each transaction: itself and its ancestors */
    uint32_t held[2 * NEKAHUIRO_RECORDS];     /* who holds the lock of record r: place 2r in any mode, */
                                              /* place 2r + 1 in write mode */
    uint32_t retained[2 * NEKAHUIRO_RECORDS]; /* who retains it, in the same places */
    uint32_t writers[NEKAHUIRO_RECORDS];      /* of each record: who has a version of it */
    uint8_t parent[NEKAHUIRO_TRANSACTIONS];   /* NEKAHUIRO_NO_PARENT for a top transaction */
    uint8_t depth[NEKAHUIRO_TRANSACTIONS];    /* 1 for a top transaction, 0 for a free number */
    uint8_t up;                               /* 1 while up, 0 while down */
    uint8_t spare[3];                         /* 0 */
} nekahuiro_state;

/* Plays a portion of events: one event, a few or a whole list, on a state that is lent and changed in
 * place. Answers, store and state are those of one run over the joined portions, as long as each gets
 * the state, store and working buffer that the last one left and nobody else writes them between.
 * Portions may follow each other without end. A refused portion adds no event.
 *
 *   state    read and written; all zeros before the first portion
 *   store    read and written
 *   events   read only; an empty portion is fine and changes nothing
 *   work     read and written: it holds the versions of live transactions. The version of record r by
 *            a writer of depth d is the page at ((r * NEKAHUIRO_DEPTH_LIMIT) + d - 1) *
 *            NEKAHUIRO_PAGE_BYTES; what the other bytes held before has no effect, and what they hold
 *            after has no meaning
 *   answers  two bytes an event are written; bytes past the last event stay
 *
 * Answers 0 if the events were played, whatever their own answers are. Else, tried in this order and
 * with nothing changed, the state included: 22, 24, 20, 21, 25.
 */
uint8_t nekahuiro_portion(nekahuiro_state *state,
                          uint8_t *store, size_t store_size,
                          const uint8_t *events, size_t events_size,
                          uint8_t *work, size_t work_size,
                          uint8_t *answers, size_t answers_size);

/* Transactions that wait on each other
 *
 * A waiting row says that a transaction waits for the lock of a record, which was refused with 8; the mode
 * is NEKAHUIRO_WRITE_MODE or NEKAHUIRO_READ_MODE. A transaction may have several rows, and a row whose lock
 * can be granted does no harm.
 *
 * A waiting transaction points to each transaction that blocks its lock: to read, each other that holds it
 * in write mode and each that retains it in write mode and is neither the waiter nor its ancestor; to write,
 * the same in any mode. It also points to the ancestors of these which are neither the waiter nor its
 * ancestors. Every transaction points to its live children. What is prepared in the store plays no part.
 *
 * A ring of such pointings can't clear by itself: an abort of one of its transactions breaks it.
 */
typedef struct nekahuiro_row {
    uint8_t transaction; /* who waits */
    uint8_t record;      /* for the lock of which record */
    uint8_t mode;        /* to write or to read */
} nekahuiro_row;

typedef struct nekahuiro_ring {
    uint8_t length;                               /* 0: there is no ring */
    uint8_t transactions[NEKAHUIRO_TRANSACTIONS]; /* each points to the next, the last to the first; none */
                                                  /* stands here twice, and zeros come after them */
} nekahuiro_ring;

/* Answers 0, with a ring written to `ring`, or length 0 and zeros if there is none; any ring may be shown.
 * Else, tried in this order and with nothing written: 25 (page 0 plays no part); 26; then row by row 5, the
 * transaction isn't live, 23, 1, the mode is above 1. State and rows are only read. */
uint8_t nekahuiro_waiting(const nekahuiro_state *state, const nekahuiro_row *rows, size_t count,
                          nekahuiro_ring *ring);

/* The page writes of an event, one by one, before it is played
 *
 * A portion changes a copy of the store in memory. A medium is brought along by the page writes of each
 * commit, recover, prepare and decide in their order: number 0, then 1, until there is none; then the
 * event is played with count 63. Wherever the power goes among them, the medium holds what the same
 * event with that count leaves: read back, it recovers with no mixture and nothing lost that was
 * committed. The same pages in another order are no such thing.
 *
 *   state, store, work  read only: as they stand before the event is played
 *   event               read only: one event word; its count is left aside
 *   index               the number of the page write, from 0
 *   write               NEKAHUIRO_PAGE_WRITE_BYTES: the page's number, then its 32 bytes
 *
 * Answers 0 and writes the page write; or 12 with nothing written where the event makes no such page
 * write: it makes fewer, is refused, or is of a kind that makes none. Else, tried in this order and with
 * nothing written: 22, 24, 20, 21, 25. Nothing is played, and nothing but `write` is ever written.
 */
#define NEKAHUIRO_PAGE_WRITE_BYTES 33
uint8_t nekahuiro_page_write(const nekahuiro_state *state,
                             const uint8_t *store, size_t store_size,
                             const uint8_t *event, size_t event_size,
                             const uint8_t *work, size_t work_size,
                             uint8_t index, uint8_t *write, size_t write_size);

/* Lays down a fresh store: an empty commit page and zeros elsewhere.
 * Answers 0, or 22 with nothing written. */
uint8_t nekahuiro_fresh(uint8_t *store, size_t store_size);

/* How old a record is. Clock and limit are in minutes; the stamp is the first four bytes of the
 * record's settled value, most significant first. The age is clock minus stamp. */
#define NEKAHUIRO_LIVE 0  /* from 0 to the limit */
#define NEKAHUIRO_AHEAD 1 /* below 0 */
#define NEKAHUIRO_STALE 2 /* above the limit */

/* Answers 0 live, 1 ahead or 2 stale, and writes the age, from -4294967295 to 4294967295.
 * Else, tried in this order and with nothing written: 22, 23, 4. */
uint8_t nekahuiro_age(const uint8_t *store, size_t store_size, uint8_t record,
                      uint32_t clock, uint32_t limit, int64_t *age);

/* Whether a start store, a list of events, its answers and an end store belong together, as one run over
 * that store and that list says. The auditor has an engine of its own: it finds the answer that is due to
 * each event in the events and answers before it and keeps no version and no lock. It agrees with
 * nekahuiro_run on every list that it takes.
 *
 *   start, events, answers, end  read only; answer bytes past the last event aren't looked at
 *   place                        written at 1 and 2 only
 *
 * Answers 0 if they belong together; 1 if not, with the first event that has a wrong answer at `place`,
 * from 0; 2 if every answer is right, with the first wrong page of the end store at `place`. Else, tried
 * in this order and with nothing written: 22 (either store), 20, 21, 30. A list with a kind from 9 to 11
 * anywhere, whatever its other fields, or a start store in which a transaction is prepared, is 30.
 *
 * It needs NEKAHUIRO_AUDIT_STACK_BYTES of stack, and time that grows with the square of the list's
 * length: tens of milliseconds for the longest. */
#define NEKAHUIRO_BELONGS 0
#define NEKAHUIRO_WRONG_EVENT 1
#define NEKAHUIRO_WRONG_PAGE 2
uint8_t nekahuiro_audit(const uint8_t *start, size_t start_size,
                        const uint8_t *events, size_t events_size,
                        const uint8_t *answers, size_t answers_size,
                        const uint8_t *end, size_t end_size, uint16_t *place);

/* Two ends that commit together
 *
 * The depot asks the gateway, the end with the store, to prepare a transaction; decides once; and tells
 * its decision as often as it is asked. Messages between them carry an identity of 8 bits and may be
 * lost, repeated or late. The depot keeps one byte for each identity, which must outlast power cuts.
 *
 *                     start            yes                 no                  give-up
 *   0 idle            asked, prepare   27                  27                  27
 *   1 asked           27               committed, commit   aborted, abort      aborted, abort
 *   2 committed       asked, prepare   committed, commit   committed, commit   27
 *   3 aborted         asked, prepare   aborted, abort      aborted, abort      27
 *
 * Start and give-up come from the depot's own board, yes and no from the gateway; the reply is an order
 * to the gateway. The gateway plays a prepare or decide only when such an order comes, and a query when
 * it likes, and sends the vote that nekahuiro_vote gives. Both ends then never hold opposite decisions
 * for one transaction, as long as no message with an identity is under way, and no transaction is
 * prepared with it, whenever that identity is started.
 */
#define NEKAHUIRO_IDLE 0
#define NEKAHUIRO_ASKED 1
#define NEKAHUIRO_COMMITTED 2
#define NEKAHUIRO_ABORTED 3

#define NEKAHUIRO_START 0
#define NEKAHUIRO_YES 1
#define NEKAHUIRO_NO 2
#define NEKAHUIRO_GIVE_UP 3

#define NEKAHUIRO_ORDER_PREPARE 0
#define NEKAHUIRO_ORDER_COMMIT 1
#define NEKAHUIRO_ORDER_ABORT 2

/* Takes one message to the depot: writes the next state and the reply and answers 0; or answers 27 with
 * nothing written, also for a state or message that isn't one of the four. */
uint8_t nekahuiro_depot(uint8_t *state, uint8_t message, uint8_t *reply);

/* The gateway's vote after an event of this kind with this answer: NEKAHUIRO_YES if a prepare is answered
 * 0, or a query is answered 0 with value 1; NEKAHUIRO_NO for any other answer to a prepare or a query;
 * NEKAHUIRO_NO_VOTE for any other kind. */
#define NEKAHUIRO_NO_VOTE 0
uint8_t nekahuiro_vote(uint8_t kind, uint8_t number, uint8_t value);

/* Job sheets
 *
 *   sheet        = transaction
 *   transaction  = "{" step* ( "}" | "!" )                    "}" commits it, "!" aborts it
 *   step         = lock | write | read | transaction
 *   lock         = "L" record
 *   write        = "W" record offset value
 *   read         = "R" record offset
 *   record       = digit
 *   offset       = ( "0" | "1" ) digit
 *   value        = digit digit
 *   digit        = "0" .. "9" | "A" .. "F"
 *
 * No other byte may stand anywhere, so no blanks and no line end. Transactions nest at most 16 deep, and
 * the list has at most 4096 events: a begin and an end for each transaction, one event for each other step.
 *
 * Locks are to write, commits have count NEKAHUIRO_NO_CUT and aborts no report. Transactions are numbered
 * by their depth minus 1. These are the numbers that the begins are answered with where the list is played
 * as one portion on a state that is up with nothing live; and then no end is refused, but for the last
 * commit with 13 where it changed a record and another transaction is prepared.
 */

/* Makes a list of a job sheet.
 *
 *   sheet    read only
 *   list     the event words are written at its beginning; the bytes past them stay
 *   told     the list's length in bytes, or the place of the fault
 *
 * Answers 0 with the list written and its length told. Else, tried in this order: 28 with nothing touched;
 * 29 with the list untouched and the place told, from 0, of the first byte after which no sheet could
 * follow, or sheet_size where the sheet only ends too soon. */
uint8_t nekahuiro_sheet(const uint8_t *sheet, size_t sheet_size,
                        uint8_t *list, size_t list_size, size_t *told);

#ifdef __cplusplus
}
#endif

#endif
