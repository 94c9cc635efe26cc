/* Zhemdurak for C: open a day, take messages whole or in parts, withdraw them, ask for boards. docs/SCOPE.md has the rules, examples/board.c a use of it all.

   Link the archive that `tools/native-archive` writes, or `tools/install PREFIX` puts with this header and a pkg-config file: `cc program.c
   $(pkg-config --cflags --libs desk)`. For x86-64 Linux.

   MEMORY. All memory is lent for the time of one call, each piece as a pointer and a length; nothing is kept and nothing allocated. What a call may
   write (book, table, places, staging, line, feed, answer) must overlap nothing else that is passed to it; what it only reads may overlap. `places`,
   `feed` and `answer` are aligned as their types are. Where a length is 0, the pointer may be NULL; `line`, `feed` and `answer` may not.

   THREADS. There is no data but what is lent, and what stands on the stack: calls may run side by side, in as many threads as wanted, if what one
   writes no other is lent. A call takes the same stack whatever it is passed: open 1 MB, message, withdraw and the calls of a feed less than 400 KB, board
   less than 10 KB (on x86-64; `tools/stack` measures it). Threads with small stacks need more than their default.

   ANY BYTES and any numbers may be passed: a call refuses what it cannot take, and a refused call changes nothing but `answer`.

   THE DAY is the book, the table and two counts. The counts of the last answer (used, rows) go to the next call; a refused call gives back the ones that
   it was passed. `struct desk_day` with desk_day_open, desk_day_message, desk_day_feed_end, desk_day_withdraw and desk_day_board keeps them and passes them
   on by itself; the plain calls leave that to you.

   THE ANSWER of a call on the day is six numbers, and each call returns the first of them too:

     [0] number   DESK_ACCEPTED, or why it was refused
     [1] value    accepted: message, whole or in parts: its number, 0 where it had no rows; else 0
                  refused: DESK_SYNTAX: the fault's byte offset, from 0; DESK_LINE_LONG, DESK_FORM, DESK_FIELD, DESK_NOT_REGISTERED: the line, from 1;
                  else 0
     [2] second   refused: DESK_FIELD: the column, from 1; else 0
     [3] dossier  open refused with DESK_TOO_LONG to DESK_FIELD or DESK_LINE_LONG: 1 the planning, 2 the calendar; else 0
     [4] used     bytes used of the book, for the next call; refused: as passed
     [5] rows     rows of the table, for the next call; refused: as passed

   THE ANSWER OF A BOARD is three numbers. It has no counts, so that none can be taken for the day's:

     [0] number   DESK_ACCEPTED, or why it was refused
     [1] value    accepted: how many places were written; else 0
     [2] second   accepted: how many passages are shown in all; else 0 */
#ifndef DESK_H
#define DESK_H

#include <stddef.h>
#include <stdint.h>

#ifdef __cplusplus
extern "C" {
#endif

/* Of this face: one more where a call or an answer changes. 2: a board's answer has three numbers. 3: DESK_LINE_LONG, and messages in parts.
   4: a message states its form, and so does a feed; DESK_UNKNOWN_FORM. */
enum { DESK_VERSION = 4 };

/* The places in an answer, and how many there are: of a call on the day, and of a board. */
enum {
    DESK_ANSWER_NUMBER = 0,
    DESK_ANSWER_VALUE = 1,
    DESK_ANSWER_SECOND = 2,
    DESK_ANSWER_DOSSIER = 3,
    DESK_ANSWER_USED = 4,
    DESK_ANSWER_ROWS = 5,
    DESK_ANSWER = 6,
    DESK_BOARD_ANSWER = 3
};

/* An answer's number, and which calls give it; end is that of a feed. Where several hold, the first is given in the order 1, 18, 2, 3, 15, 4 to 6, 14, 7,
   9, 10, 12, 11, 8, 13. */
enum {
    DESK_ACCEPTED = 0,
    DESK_UNSOUND = 1,            /* message, feed, end, withdraw, board: counts, book, table, register, feed or staged rows cannot be worked with */
    DESK_TOO_LONG = 2,           /* open, message, end: a dossier over DESK_DOSSIER bytes */
    DESK_SYNTAX = 3,             /* open, message, end: not the form of a dossier */
    DESK_FORM = 4,               /* open, message, end: a wanted column twice, or missing, or a line with another number of fields than its label line */
    DESK_FIELD = 5,              /* open, message, end: a wanted field outside its type */
    DESK_NOT_REGISTERED = 6,     /* message, end: the sender is not registered for a row's owner */
    DESK_BOOK_SHORT = 7,         /* open, message, end: no room in the book */
    DESK_TABLE_SHORT = 8,        /* open, message, end, withdraw: no room in the table */
    DESK_KEY_TWICE = 9,          /* open: one passage is planned twice */
    DESK_NO_MESSAGE = 10,        /* withdraw: no message has the number */
    DESK_ALREADY_WITHDRAWN = 11, /* withdraw */
    DESK_OTHER_SENDER = 12,      /* withdraw: the sender is neither the message's nor the desk */
    DESK_OUT_OF_RANGE = 13,      /* board: owner, stop, date, second or horizon */
    DESK_STAGING_SHORT = 14,     /* end: the staging area has no room for all rows, or had none while they were fed */
    DESK_LINE_LONG = 15,         /* open, message, end: a line over DESK_LINE bytes */
    DESK_UNKNOWN_FORM = 18       /* message, end: the form is neither DESK_OLD_FORM nor DESK_NEW_FORM */
};

/* Sizes to lend where room is never to lack. Less may be lent; of more, no more than this is used. */
enum {
    DESK_BOOK = 294912,       /* bytes of a book: 4,096 updates, or 4,401 planned passages */
    DESK_ROWS = 2048,         /* rows of a table */
    DESK_ROW = 67,            /* bytes of a row */
    DESK_TABLE = 2048 * 67,   /* bytes of a table */
    DESK_PAIR = 11,           /* bytes of a pair of the register: a sender, then its owner padded with zeros */
    DESK_REGISTER = 64 * 11,  /* bytes of a register at most. A longer one, or a part of a pair, is unsound; an empty one registers nobody */
    DESK_DOSSIER = 65536,     /* bytes of a dossier at most */
    DESK_LINE = 4096,         /* bytes of a line of a dossier at most, its CR LF among them */
    DESK_STAGING = 2427 * 66, /* bytes of a staging area: the rows of any dossier */
    DESK_FEED = 48            /* numbers of a feed */
};

/* A sender is 1 to 255. 0 is the desk: it sends no rows, and withdraws anybody's message. */
enum { DESK_SENDER = 0 };

/* The form of a message: the old one, or that of turbo 8.5. There ShowCancelledJourney (true, false, message) is wanted in place of ShowCancelledTrip, and
   Monitored is true or false in place of 1 or 0. */
enum { DESK_OLD_FORM = 0, DESK_NEW_FORM = 1 };

/* Where a row of the table has what, and in how many bytes: texts padded with zeros, numbers big-endian. The key is the first DESK_KEY_WIDE bytes, the
   body, which the book has too, the first DESK_BODY_WIDE. */
enum {
    DESK_OWNER_AT = 0,             /* text */
    DESK_DATE_AT = 10,             /* date of the operating day */
    DESK_LINE_AT = 14,             /* text */
    DESK_JOURNEY_AT = 24,          /* DESK_JOURNEY_WIDE */
    DESK_FORTIFY_AT = 28,          /* 1 */
    DESK_STOP_AT = 29,             /* text */
    DESK_ORDER_AT = 39,            /* DESK_ORDER_WIDE */
    DESK_DESTINATION_AT = 41,      /* text */
    DESK_TIMESTAMP_AT = 51,        /* DESK_TIMESTAMP_WIDE; 0 where nothing has been heard */
    DESK_STATUS_AT = 55,           /* 1 */
    DESK_ARRIVAL_AT = 56,          /* time */
    DESK_DEPARTURE_AT = 59,        /* time */
    DESK_STOP_TYPE_AT = 62,        /* 1 */
    DESK_SHOW_CANCELLED_AT = 63,   /* 1 */
    DESK_FLEXIBLE_AT = 64,         /* 1 */
    DESK_MONITORED_AT = 65,        /* 1: 0 or 1 */
    DESK_HEARD_AT = 66,            /* 1: 1 where a standing message has told of the passage, 0 where the plan alone has */

    DESK_KEY_WIDE = 41,
    DESK_BODY_WIDE = 66,
    DESK_TEXT_WIDE = 10,
    DESK_DATE_WIDE = 4,            /* the number YYYYMMDD */
    DESK_JOURNEY_WIDE = 4,
    DESK_ORDER_WIDE = 2,
    DESK_TIMESTAMP_WIDE = 4,       /* seconds since 1970-01-01 UTC */
    DESK_TIME_WIDE = 3             /* seconds of the operating day, to 115,199: 24:10:00 is on the next date's clock */
};

/* An arrival at the first stop and a departure at the last may be missing. */
enum { DESK_NO_TIME = 16777215 };

/* What stands at DESK_STATUS_AT, */
enum { DESK_PLANNED = 0, DESK_CANCEL = 1, DESK_UNKNOWN = 2, DESK_DRIVING = 3, DESK_ARRIVED = 4, DESK_PASSED = 5 };

/* at DESK_STOP_TYPE_AT, */
enum { DESK_FIRST = 0, DESK_INTERMEDIATE = 1, DESK_LAST = 2 };

/* at DESK_SHOW_CANCELLED_AT: whether a cancelled passage is shown; not, so, or not but with a message that is sent beside it, */
enum { DESK_CANCELLED_FALSE = 0, DESK_CANCELLED_TRUE = 1, DESK_CANCELLED_MESSAGE = 2 };

/* and at DESK_FLEXIBLE_AT: whether a flexible trip is shown; not said, always, never, or where it is monitored. */
enum { DESK_FLEXIBLE_NOT_SAID = 0, DESK_FLEXIBLE_TRUE = 1, DESK_FLEXIBLE_FALSE = 2, DESK_FLEXIBLE_REALTIME = 3 };

/* Where an entry of the book has what. Plan entries come first, then updates, in the order accepted. In an update's body show cancelled, flexible and
   monitored may be DESK_KEPT: the row keeps what it has. */
enum {
    DESK_KIND_AT = 0,          /* 1: which kind of entry it is */
    DESK_KIND_PLAN = 1,
    DESK_KIND_STANDING = 2,    /* an update that counts */
    DESK_KIND_WITHDRAWN = 3,   /* an update that was taken back */

    DESK_PLAN_BODY_AT = 1,
    DESK_PLAN_WIDE = 67,       /* bytes of a plan entry */

    DESK_NUMBER_AT = 1,        /* 4: the message's number */
    DESK_SENDER_AT = 5,        /* 1 */
    DESK_UPDATE_BODY_AT = 6,
    DESK_UPDATE_WIDE = 72,     /* bytes of an update */

    DESK_KEPT = 255
};

/* A planning and a calendar dossier become the plan, in book and table, whose old contents are not read. `used` and `rows` may be any numbers: they are
   given back on a refusal. Message numbers begin at 1 again. */
uint32_t desk_open(const uint8_t *planning, size_t planning_len,
                   const uint8_t *calendar, size_t calendar_len,
                   uint8_t *book, size_t book_len,
                   uint8_t *table, size_t table_len,
                   uint64_t used, uint64_t rows, uint64_t answer[6]);

/* A message dossier, in the form that is stated, is taken whole or refused whole. The register says which senders, 1 to 255, send for which owners. The message's number is what
   desk_withdraw takes; a message without rows is accepted as 0 and changes nothing. */
uint32_t desk_message(const uint8_t *dossier, size_t dossier_len, uint8_t sender, uint32_t form,
                      const uint8_t *registered, size_t registered_len,
                      uint8_t *book, size_t book_len,
                      uint8_t *table, size_t table_len,
                      uint64_t used, uint64_t rows, uint64_t answer[6]);

/* A message dossier that arrives in parts, cut anywhere: begin, feed each part as it comes, then end. The same dossier in one call of desk_message gives
   the same answer, book and table, whatever the cuts, while nobody else writes what is lent here and the register stays the same; but for
   DESK_STAGING_SHORT. Before the end book and table are not lent, so they cannot change.

   A feed is three pieces of memory that you lend to every call of it, and that nobody else writes in between:

     feed     DESK_FEED numbers. desk_feed_begin writes all of them, whatever stood there: a feed that was begun begins anew
     line     DESK_LINE bytes for a line that is cut: its bytes so far, and zeros behind them
     staging  the rows read so far, DESK_BODY_WIDE bytes each. Lend it with one length throughout: what does not fit is counted, and answered with
              DESK_STAGING_SHORT at the end. Room for DESK_STAGING bytes is enough for any dossier

   Any bytes may stand there: what is no begun feed, as zeroed memory, is answered with DESK_UNSOUND and nothing is changed. */

/* A feed begins, for a message from this sender in this form. Returns 0: a form that is not known is read as the old one, and answered at the end. */
uint32_t desk_feed_begin(uint8_t sender, uint32_t form, uint64_t feed[48]);

/* The next part, of any length. Returns 0, or DESK_UNSOUND where `feed` is no begun feed. What is wrong with the dossier is told at the end. The register
   is asked for each row as it comes: all whole pairs of it are looked at, and its length is judged at the end. */
uint32_t desk_feed(const uint8_t *part, size_t part_len,
                   const uint8_t *registered, size_t registered_len,
                   uint8_t *staging, size_t staging_len,
                   uint8_t line[4096], uint64_t feed[48]);

/* The end: what was fed is taken whole, as a message, or refused whole. Accepted, all numbers of the feed are zero: it cannot be ended twice. Refused, the
   feed is as it was, and may be ended again, with more room say. Staged rows that were changed since they were read are taken as they are now; out of
   their ranges they are answered with DESK_UNSOUND, and an owner that the register does not grant now with DESK_NOT_REGISTERED and line 0. */
uint32_t desk_feed_end(const uint8_t *registered, size_t registered_len,
                       const uint8_t *staging, size_t staging_len,
                       uint8_t *book, size_t book_len,
                       uint8_t *table, size_t table_len,
                       uint64_t used, uint64_t rows, uint64_t feed[48], uint64_t answer[6]);

/* The message with this number is withdrawn, as if it had never been, for its own sender or for the desk, DESK_SENDER. Its room in the book does not
   come back. */
uint32_t desk_withdraw(uint32_t number, uint8_t sender,
                       uint8_t *book, size_t book_len,
                       uint8_t *table, size_t table_len,
                       uint64_t used, uint64_t rows, uint64_t answer[6]);

/* The board of a stop: which rows depart from `second` (0 to 86,399) of `date` (YYYYMMDD as a number) to `horizon` (0 to 86,400) seconds later.
   Owner and stop are 1 to 10 bytes, not padded. `places` gets the rows' places in the table, from 0, by departure, then key, as many as fit; its
   length counts places. Places behind those written keep their contents. Row p begins at byte p * DESK_ROW of the table. Places are good for this table
   only: after a message, a withdrawal or an open, ask again. A row whose fortify number is above 0 is shown only where its DESK_HEARD_AT is 1. */
uint32_t desk_board(const uint8_t *owner, size_t owner_len,
                    const uint8_t *stop, size_t stop_len,
                    uint32_t date, uint32_t second, uint32_t horizon,
                    const uint8_t *table, size_t table_len, uint64_t rows,
                    uint32_t *places, size_t places_len, uint64_t answer[3]);

/* A day that keeps its counts: book and table lent by you, with their lengths; counts 0 before it is opened; and the last answer of a call on it. */
struct desk_day {
    uint8_t *book;
    size_t book_len;
    uint8_t *table;
    size_t table_len;
    uint64_t used, rows;
    uint64_t answer[6];
};

/* The counts of the answer become the day's: accepted, the new ones; refused, those that it had. */
static inline uint32_t desk_day_keep(struct desk_day *day, uint32_t number)
{
    day->used = day->answer[DESK_ANSWER_USED];
    day->rows = day->answer[DESK_ANSWER_ROWS];
    return number;
}

static inline uint32_t desk_day_open(struct desk_day *day, const uint8_t *planning, size_t planning_len, const uint8_t *calendar, size_t calendar_len)
{
    return desk_day_keep(day, desk_open(planning, planning_len, calendar, calendar_len, day->book, day->book_len, day->table, day->table_len,
                                        day->used, day->rows, day->answer));
}

static inline uint32_t desk_day_message(struct desk_day *day, const uint8_t *dossier, size_t dossier_len, uint8_t sender, uint32_t form,
                                        const uint8_t *registered, size_t registered_len)
{
    return desk_day_keep(day, desk_message(dossier, dossier_len, sender, form, registered, registered_len, day->book, day->book_len,
                                           day->table, day->table_len, day->used, day->rows, day->answer));
}

static inline uint32_t desk_day_feed_end(struct desk_day *day, const uint8_t *registered, size_t registered_len,
                                         const uint8_t *staging, size_t staging_len, uint64_t feed[48])
{
    return desk_day_keep(day, desk_feed_end(registered, registered_len, staging, staging_len, day->book, day->book_len, day->table, day->table_len,
                                            day->used, day->rows, feed, day->answer));
}

static inline uint32_t desk_day_withdraw(struct desk_day *day, uint32_t number, uint8_t sender)
{
    return desk_day_keep(day, desk_withdraw(number, sender, day->book, day->book_len, day->table, day->table_len, day->used, day->rows, day->answer));
}

static inline uint32_t desk_day_board(const struct desk_day *day, const uint8_t *owner, size_t owner_len, const uint8_t *stop, size_t stop_len,
                                      uint32_t date, uint32_t second, uint32_t horizon, uint32_t *places, size_t places_len, uint64_t answer[3])
{
    return desk_board(owner, owner_len, stop, stop_len, date, second, horizon, day->table, day->table_len, day->rows, places, places_len, answer);
}

#ifdef __cplusplus
}
#endif

#endif
