/* What a C program asks of the room server, with plain numbers and buffers. Link with libroom.a or libroom.so. The
 * calls are proved; this text is not. room_words.h has what goes around them: parts of an answer, texts, fields of
 * records.
 *
 * Answers. Most calls answer 256 x a value + a number of enum room_refusal, 0 where nothing is refused: room_refused
 * and room_value of room_words.h are the two parts. Those that answer a uint8_t have the number alone. room_offices,
 * room_office_count, room_report_write, room_desk_sync and room_view_number refuse nothing and answer a plain number.
 * Where more than one reason to refuse applies, the first in the order written here is answered.
 *
 * Rooms. There are eight, 0 to 7. Byte 2 of every report, proposal, start notice and view is its room; sync records
 * and high marks have none. Between restarts no room's answers depend on what another is handed.
 *
 * Pointers. Nothing checks them: none may be NULL, even where its length is 0; each must point at as many elements as
 * the length beside it says, a `uint64_t *` at one; a `uint32_t *` must be aligned for uint32_t, a `uint64_t *` for
 * uint64_t; and no two buffers of one call may overlap. No call reads or writes outside what it is lent.
 *
 * Threads and memory. No call keeps anything: there are no globals, no heap, no locks, no files. Two threads may
 * call at once; during a call no other thread may write to its buffers, nor read those that the call writes to. A call
 * takes less than 4 KB of stack.
 *
 * Sizes. Compile with the names, never with the numbers: a later version has other ones. */
#ifndef ROOM_H
#define ROOM_H

#include <stddef.h>
#include <stdint.h>

#ifdef __cplusplus
extern "C" {
#endif

/* gcc and clang warn of a NULL that they see and of an answer that nobody looks at; not with ROOM_NO_ATTRIBUTES. */
#if defined(__GNUC__) && !defined(ROOM_NO_ATTRIBUTES)
#define ROOM_NONNULL __attribute__((nonnull))
#define ROOM_CALL __attribute__((nonnull, warn_unused_result))
#else
#define ROOM_NONNULL
#define ROOM_CALL
#endif

/* The version of all that is below: it rises where a record, a row of words, a size or a call becomes another. Words
 * that a program of another version has stored must not be handed in, and all offices and desks of a room have one
 * version. Words are stored in the byte order of the machine; the bytes of records do not depend on it. */
#define ROOM_VERSION 3

/* on one server: 0 to 7 */
#define ROOM_ROOMS 8
#define ROOM_OFFICES 16
#define ROOM_SEATS 64
/* of one office: seat s is at office s / 4, rounded down */
#define ROOM_OFFICE_SEATS 4
/* L: no number of a record or a state is above it */
#define ROOM_LIMIT 2000000000

/* The bytes of each record; docs/LAYOUT.md has their fields, and room_words.h reads and writes them. */
#define ROOM_REPORT_BYTES 19
#define ROOM_PROPOSAL_BYTES 85
#define ROOM_NOTICE_BYTES 15
#define ROOM_VIEW_BYTES 79
#define ROOM_SYNC_BYTES 11
#define ROOM_MARK_BYTES 10

/* The output that room_step asks for: the longest answer, a start notice and two proposals. */
#define ROOM_OUTPUT_BYTES 185
/* The longest sheet: so many sync records, so many bytes. */
#define ROOM_SHEET_RECORDS 512
#define ROOM_SHEET_BYTES 5632
/* The longest file: so many high marks, so many bytes. */
#define ROOM_FILE_MARKS 2001
#define ROOM_FILE_BYTES 20010
/* How far a mark stands above the number that it is written for, unless that is L. */
#define ROOM_MARK_MARGIN 1000000

/* The words of a state, which is one room's row. They are a state where docs/LAYOUT.md reads one in them, with an own
 * office of at most 15 and no number above L. */
#define ROOM_STATE_WORDS 410
/* The words of a table: the rows of all rooms end to end, room 0 first, with nothing before, between or behind them.
 * They are a table where all eight rows are states, also where their own offices differ. A program need not know what
 * stands in a row, and may store and copy the words. They are no way to begin again once records have left behind
 * them, since numbers would leave twice: see room_restart. */
#define ROOM_TABLE_WORDS 3280
/* The words of a desk, which is what a seat keeps of the records that its office sends it. A program may read them,
 * also by room_words.h:
 *   0       the seat, 0 to 63
 *   1 + 3r  in room r: the last start number, 0 before the first
 *   2 + 3r             the last view number, 0 before the first
 *   3 + 3r             0 where no change is open; any other word where one is */
#define ROOM_DESK_WORDS 25

/* What room_waiting_for answers above the offices. */
#define ROOM_WAITS_MET 16
#define ROOM_WAITS_NOBODY 17

/* The reasons to refuse, in short; the calls say exactly when they answer each. */
enum room_refusal {
    ROOM_ACCEPTED = 0,
    ROOM_REFUSED_OFFICE = 1,          /* the office is above 15 */
    ROOM_REFUSED_STATE = 2,           /* not as many words as a table has, or no table in them */
    ROOM_REFUSED_CAPACITY = 3,        /* the output lent is too short */
    ROOM_REFUSED_MARK = 4,            /* under two bytes, or a mark that has no place here */
    ROOM_REFUSED_LENGTH = 5,          /* not the length of its mark */
    ROOM_REFUSED_SENDER_OR_SEAT = 6,  /* a sender that is no other office; at a desk: no seat, or not its words */
    ROOM_REFUSED_KIND = 7,            /* neither fast nor slow */
    ROOM_REFUSED_NUMBER = 8,          /* above L; in a proposal also 0 as start number or proposal number */
    ROOM_REFUSED_MEMBERS = 9,         /* no seat of the sender or of this office; at a desk: not its seat */
    ROOM_REFUSED_STRAY = 10,          /* a number that is not 0 for an office without a seat in the members */
    ROOM_REFUSED_OLD_PROPOSAL = 11,   /* not above the last number accepted from its sender */
    ROOM_REFUSED_UNREACHED = 12,      /* uses a number of this office that it has not reached */
    ROOM_REFUSED_CEILING = 13,        /* the event would make a number above L */
    ROOM_REFUSED_OLD_NOTICE = 14,     /* not above the last start number, or below the last view number */
    ROOM_REFUSED_UNAWAITED_VIEW = 15, /* no change is open, or it has another start number */
    ROOM_REFUSED_LOW_VIEW = 16,       /* not above the last start number */
    ROOM_REFUSED_SHEET = 17,          /* above ROOM_SHEET_BYTES, or no multiple of ROOM_SYNC_BYTES */
    ROOM_REFUSED_FILE = 18,           /* above ROOM_FILE_BYTES, or a whole record of it is no such mark */
    ROOM_REFUSED_SELF_USE = 19,       /* its used number for its sender is not below its own number */
    ROOM_REFUSED_ROOM = 20            /* the room is above 7 */
};

/* ---- An office ---- */

/* Makes the fresh table of an office in `table`, over any words: all eight rows are its fresh state.
 *   0  it is made
 *   1  the office is above 15; the fresh table of office 0 is made where `words` is ROOM_TABLE_WORDS
 *   2  the office is at most 15 and `words` is not ROOM_TABLE_WORDS
 * Where `words` is not ROOM_TABLE_WORDS no word is touched. Zeros are the fresh table of office 0, so a call that was
 * forgotten may go unseen. */
ROOM_CALL uint8_t room_fresh(uint8_t office, uint32_t *table, size_t words);

/* Writes the report that seats join and leave in a room to the start of `out`, whose length is `capacity`. Bit s of a
 * set is seat s; any two sets make a report. The answer is the bytes written: ROOM_REPORT_BYTES, or 0 where `capacity`
 * is less or the room is above 7, and then no byte is touched. No byte behind those written is. */
ROOM_CALL uint32_t room_report_write(uint8_t room, uint64_t joining, uint64_t leaving, uint8_t *out, size_t capacity);

/* Hands the record of `length` bytes, a report or a proposal, to the table of an office. First it is read for
 * `office`, as by room_read, whatever the words and the output are. Then the row of its room changes in place, and
 * acts with its own office, which is `office` in a table that was made for it. What is written stands from the start
 * of `out`, whose length is `capacity`. Answer: 256 x the bytes written + the refusal or 0.
 *   answer % 256  1   `office` is above 15
 *                 4   the record has under two bytes, or its mark is neither 4E 45 (report) nor 50 52 (proposal)
 *                 5   its length is not that of its mark
 *                 20  its room is above 7
 *                 6   a proposal's sender is above 15 or is `office`
 *                 7   its kind is not 1 or 2
 *                 8   its start number or proposal number is 0 or above L, or a used number is above L
 *                 9   its members hold no seat of the sender or no seat of `office`
 *                 10  it has a used number that is not 0 for an office without a seat in the members
 *                 19  its used number for the sender is not below its proposal number
 *                 2   `words` is not ROOM_TABLE_WORDS, or the words are no table: one of the eight rows, whichever the
 *                     record's room is, is no state
 *                 3   `capacity` is under ROOM_OUTPUT_BYTES
 *                 where the own office of the room's row is another than `office`, these two once more:
 *                 6   a proposal's sender is that own office
 *                 9   its members hold no seat of that own office
 *                 11  its proposal number is not above the last accepted from this sender in this room
 *                 12  its used number for the row's own office is above that office's proposal number in this room
 *                 13  the event would make a number above L
 *                 0   none of these: the record is accepted
 *   answer / 256  the bytes written, at most ROOM_OUTPUT_BYTES; 0 where the record is refused
 * Where the record is refused, no word of the table and no byte of the output is touched. Where it is accepted, no
 * word of the other seven rows is, nor any byte after those written; and what is answered, written and left in the
 * room's row depends on that row and the record alone. A report that leaves the net view equal to what it was is
 * accepted and does nothing: 0 bytes, and no word is touched. The record is only read.
 *
 * What is written is nothing, or one to three records of the same room end to end, to be sent in this order (room_next
 * of room_words.h takes them apart); this office is the row's own:
 *   a start notice, 53 43  to those of this office's own seats that are in its members
 *   a proposal, 50 52      to every office of its members (room_offices) but this one; there may be two
 *   a view, 56 57          to those of this office's own seats that are in its members; always the last
 * An office that keeps a file of high marks asks room_mark_before ahead of each. */
ROOM_CALL uint32_t room_step(uint8_t office, uint32_t *table, size_t words, const uint8_t *record, size_t length,
                             uint8_t *out, size_t capacity);

/* The number of a room's current view: before the first 0, or the mark that room_restart began at. 0 too where `words`
 * is not ROOM_TABLE_WORDS or the words are no table, as room_step answers 2, and where the room is above 7. The
 * words are only read. */
ROOM_CALL uint32_t room_view_number(const uint32_t *table, size_t words, uint8_t room);

/* Whom the office, the own office of the room's row, waits for in a room. Answer: 256 x a value + the refusal or 0:
 *   answer % 256  2   `words` is not ROOM_TABLE_WORDS or the words are no table, as room_step answers 2
 *                 20  the room is above 7
 *                 0   none of these
 *   answer / 256  0 to 15            the lowest-numbered office of the room's net view without the proposal that the
 *                                    agreement test asks for
 *                 ROOM_WAITS_MET     none lacks it: the test is met, as it is in no row that room_fresh and room_step
 *                                    have made
 *                 ROOM_WAITS_NOBODY  the mode is none, or the office has no seat in the net view; and with a refusal
 * The words are only read. */
ROOM_CALL uint32_t room_waiting_for(const uint32_t *table, size_t words, uint8_t room);

/* ---- A desk: a seat, and for each room what it has heard there ---- */

/* Makes a fresh desk in `desk`, over any words: the seat, and in every room start number 0, view number 0 and no
 * change open.
 *   0  it is made
 *   6  the seat is above 63, and the fresh desk of seat 0 is made where `words` is ROOM_DESK_WORDS; or `words` is not
 *      ROOM_DESK_WORDS
 * Where `words` is not ROOM_DESK_WORDS no word is touched. */
ROOM_CALL uint8_t room_desk_fresh(uint8_t seat, uint32_t *desk, size_t words);

/* Hands the record of `length` bytes, a start notice or a view of room r, to a desk, which changes in place.
 *   6   `words` is not ROOM_DESK_WORDS, or word 0 is above 63
 *   4   the record has under two bytes, or its mark is neither 53 43 (start notice) nor 56 57 (view)
 *   5   its length is not that of its mark
 *   20  its room r is above 7
 *   8   a notice's start number, a view's number, one of a view's sixteen start numbers, word 1 + 3r or word 2 + 3r is
 *       above L
 *   9   the members lack the seat
 *   10  a view has a start number that is not 0 for an office without a seat in the members
 *   14  a notice's start number is not above word 1 + 3r, or is below word 2 + 3r
 *   15  a view finds no change open (word 3 + 3r is 0), or its start number for the seat's office is not word 1 + 3r
 *   16  a view's number is not above word 1 + 3r
 *   0   none of these: the record is accepted
 * Where the record is refused no word is touched. A notice that is accepted leaves its start number in word 1 + 3r
 * and 1 in word 3 + 3r, a view that is accepted its number in word 2 + 3r and 0 in word 3 + 3r; the other words stay.
 * Those of the other seven rooms are not looked at. The record is only read. */
ROOM_CALL uint8_t room_desk_hear(uint32_t *desk, size_t words, const uint8_t *record, size_t length);

/* Makes the sync record of a desk for the room r, by which it tells the others which view of that room it comes from,
 * in the first ROOM_SYNC_BYTES bytes of `out`, whose length is `capacity`: word 0 is the seat, word 1 + 3r the start
 * number, word 2 + 3r the previous view number. It is for the moment after each start notice that the desk accepts.
 * The record does not say its room: the way that it is sent must.
 *   ROOM_SYNC_BYTES  the record is made
 *   0                `words` is not ROOM_DESK_WORDS, or word 0 is above 63, or the room is above 7, or `capacity` is
 *                    under ROOM_SYNC_BYTES; no byte is touched
 * The two numbers are written as they stand, also above L, where whoever reads the record refuses it by 8; word
 * 3 + 3r and the words of the other rooms are not looked at. No byte behind the record is touched. The words are only
 * read. */
ROOM_CALL size_t room_desk_sync(const uint32_t *desk, size_t words, uint8_t room, uint8_t *out, size_t capacity);

/* Who came along from the old view, by a sheet of sync records, a view and one's own previous view number. The sheet
 * is that of the view's room: no record on it says which it is, so a desk keeps one for each. A record of a seat
 * counts if its start number is the one that the view has for the seat's office; where more than one does, the first
 * on the sheet counts. One that does not count is not bad. The asker need not be a member. The answer is 256 x a
 * value + the refusal or 0:
 *   answer % 256  4   the view has under two bytes, or its mark is not 56 57 (also that of a start notice)
 *                 5   its length is not ROOM_VIEW_BYTES
 *                 20  its room is above 7
 *                 8   its number, one of its sixteen start numbers or `previous` is above L
 *                 10  it has a start number that is not 0 for an office without a seat in the members
 *                 17  `sheet_length` is above ROOM_SHEET_BYTES or no multiple of ROOM_SYNC_BYTES
 *                 at the first record from the front that has one of these, of a seat outside the members too:
 *                 4   its mark is not 53 59
 *                 6   its seat is above 63
 *                 8   its start number or its previous view number is above L
 *                 0   none of these
 *   answer / 256  0         with a refusal; or every member has a record that counts, and the set of those whose
 *                           record names `previous` is put into *members
 *                 1 to 64   1 + the lowest member seat that has no record that counts
 * *members is not touched unless the answer is 0. The sheet and the view are only read. */
ROOM_CALL uint32_t room_came_along(const uint8_t *sheet, size_t sheet_length, const uint8_t *view, size_t view_length,
                                   uint32_t previous, uint64_t *members);

/* ---- An office that may lose its current ----
 *
 * It keeps high marks in a file, one for all its rooms, so that it gives no number out twice in a room: 48 4D, a
 * four-byte number, most significant byte first, and the same number again. The file is the caller's; these calls open
 * none. */

/* Makes the table with which an office begins again, from its file of high marks, over any words: fresh, but in every
 * room proposal number, start number and view number begin at the file's last whole mark, or at 0 where it has none.
 *   1   the office is above 15
 *   18  `length` is above ROOM_FILE_BYTES, or a whole record of the file is no such mark: it is not 48 4D and one
 *       number twice, or the number is above L, or it is neither more than ROOM_MARK_MARGIN above the one before it
 *       nor L after a lower one (the first: not above 0)
 *   2   none of these, and `words` is not ROOM_TABLE_WORDS
 *   0   the table is made
 * With 1 and 18 the fresh table of office 0 is made where `words` is ROOM_TABLE_WORDS. Where `words` is not
 * ROOM_TABLE_WORDS no word is touched. Up to 9 bytes behind the last whole record are not looked at; they count in
 * `length`. The file is only read. An office that begins at L answers 13 to all that would make a number, in every
 * room. */
ROOM_CALL uint8_t room_restart(uint8_t office, const uint8_t *file, size_t length, uint32_t *table, size_t words);

/* The last whole mark of a file. The answer is 256 x its number + the refusal or 0:
 *   answer % 256  18 as for room_restart, or 0
 *   answer / 256  the number of the last whole mark; 0 where there is none, and with the refusal
 * The next mark belongs at byte ROOM_MARK_BYTES x (length / ROOM_MARK_BYTES) of the file, over an unfinished one. The
 * file is only read. */
ROOM_CALL uint64_t room_last_mark(const uint8_t *file, size_t length);

/* What must happen before the first record of `rest` may leave: a start notice, a proposal or a view of any room as
 * room_step wrote it, with anything behind it. `last` is the number of the last mark in the file, 0 where there is
 * none.
 *   answer % 256        3  `capacity` is under ROOM_MARK_BYTES
 *                       4  `rest` has under two bytes, or its mark is none of 53 43, 50 52 and 56 57
 *                       5  it has fewer bytes than its mark's length
 *                       8  `last` or a four-byte number of the record is above L
 *                       0  none of these
 *   answer / 256 % 256  the record's length; 0 with a refusal
 *   answer / 65536      the last mark once the record may leave; 0 with a refusal. Where it is `last`, nothing is to
 *                       be written. Where it is higher, `out` begins with that mark: put its bytes into the file
 *                       behind the last whole mark, see them on the disk, then send the record. Where that fails the
 *                       record must not leave, and the office must begin again.
 * Then go on behind the record's length, with that mark as `last`: a mark may be due before each record of an answer.
 * A mark is due where one of the record's four-byte numbers (used numbers and other offices' start numbers too) is
 * above `last`; it is the largest of them plus ROOM_MARK_MARGIN, or L if that is less. The room is not looked at. No
 * byte of `out` is touched unless a mark is due, and then only the first ROOM_MARK_BYTES. */
ROOM_CALL uint64_t room_mark_before(uint32_t last, const uint8_t *rest, size_t length, uint8_t *out, size_t capacity);

/* ---- Questions without a table ---- */

/* Checks 4 and 5 on a lone report or proposal of `length` bytes.
 *   4  it has under two bytes, or its mark is neither 4E 45 (report) nor 50 52 (proposal)
 *   5  its length is not that of its mark
 *   0  it passes both; what stands behind the mark is not looked at, so a room above 7 passes too
 * The bytes are only read. */
ROOM_CALL uint8_t room_record_check(const uint8_t *bytes, size_t length);

/* Reads a lone report or proposal of `length` bytes for an office. What it refuses, room_step refuses for that office
 * by the same number, whatever the table and the output are: a broken record can be rejected before there is a table.
 *   1   the office is above 15
 *   4   the record has under two bytes, or its mark is neither 4E 45 (report) nor 50 52 (proposal)
 *   5   its length is not that of its mark
 *   20  its room is above 7
 *   6   a proposal's sender is above 15 or is the office
 *   7   its kind is not 1 or 2
 *   8   its start number or proposal number is 0 or above L, or a used number is above L
 *   9   its members hold no seat of the sender or no seat of the office
 *   10  it has a used number that is not 0 for an office without a seat in the members
 *   19  its used number for the sender is not below its proposal number
 *   0   none of these: the record reads; whether it is accepted is for room_step to say, by the table
 * The two sets of a report may be any. The bytes are only read. */
ROOM_CALL uint8_t room_read(uint8_t office, const uint8_t *record, size_t length);

/* The offices of a set of seats. Bit o of the answer is set when office o has at least one seat in the set; 0 for the
 * empty set. */
ROOM_CALL uint16_t room_offices(uint64_t set);

/* How many offices have a seat in the set: 0 to 16, the number of ones in what room_offices answers for it. */
ROOM_CALL uint8_t room_office_count(uint64_t set);

#ifdef __cplusplus
}
#endif

#endif
