/* Names and texts around room.h, header only and outside the proof: nothing here decides anything, the proved calls
 * do. Nothing here reads or writes outside what it is lent. */
#ifndef ROOM_WORDS_H
#define ROOM_WORDS_H

#include "room.h"

#ifdef __cplusplus
extern "C" {
#endif

/* ---- Answers ---- */

/* The refusal, ROOM_ACCEPTED where there is none, and the value. Not for the calls that answer a plain number: room.h
 * names them. */
static inline unsigned room_refused(uint64_t answer) { return (unsigned)(answer % 256); }
static inline uint64_t room_value(uint64_t answer) { return answer / 256; }

/* The two parts of room_mark_before's value: the length of the record in front; the last mark once it may leave. */
static inline size_t room_before_length(uint64_t answer) { return (size_t)(answer / 256 % 256); }
static inline uint32_t room_before_mark(uint64_t answer) { return (uint32_t)(answer / 65536); }

/* A plain sentence for each number of enum room_refusal, true of every call that answers it. */
static inline const char *room_refusal_text(unsigned refusal) {
    switch (refusal) {
    case ROOM_ACCEPTED: return "accepted";
    case ROOM_REFUSED_OFFICE: return "the office is above 15";
    case ROOM_REFUSED_STATE: return "the words are no table, or not as many as a table has";
    case ROOM_REFUSED_CAPACITY: return "the output is too short";
    case ROOM_REFUSED_MARK: return "the record has no mark, or one that has no place here";
    case ROOM_REFUSED_LENGTH: return "the record does not have the length of its mark";
    case ROOM_REFUSED_SENDER_OR_SEAT: return "the sender is no other office, or there is no such seat";
    case ROOM_REFUSED_KIND: return "the proposal is neither fast nor slow";
    case ROOM_REFUSED_NUMBER: return "a number is above 2,000,000,000, or is 0 where it may not be";
    case ROOM_REFUSED_MEMBERS: return "the members lack the seat, or hold none of the sender or of this office";
    case ROOM_REFUSED_STRAY: return "a number that is not 0 stands for an office outside the members";
    case ROOM_REFUSED_OLD_PROPOSAL: return "the proposal is old";
    case ROOM_REFUSED_UNREACHED: return "the proposal uses a number that this office has not reached";
    case ROOM_REFUSED_CEILING: return "a number would pass 2,000,000,000";
    case ROOM_REFUSED_OLD_NOTICE: return "the start notice is old";
    case ROOM_REFUSED_UNAWAITED_VIEW: return "the view is not the one awaited";
    case ROOM_REFUSED_LOW_VIEW: return "the view's number is not above the last start number";
    case ROOM_REFUSED_SHEET: return "the sheet is too long, or its length is no multiple of a record's";
    case ROOM_REFUSED_FILE: return "the file is too long, or a whole record of it is no such mark";
    case ROOM_REFUSED_SELF_USE: return "the proposal claims to have used itself";
    case ROOM_REFUSED_ROOM: return "the room is above 7";
    default: return "a number that this version does not know";
    }
}

/* ---- Sets of seats ---- */

/* The set of one seat, empty for one above 63; and whether a set has a seat. */
static inline uint64_t room_seat(unsigned seat) { return seat < ROOM_SEATS ? (uint64_t)1 << seat : 0; }
static inline int room_has(uint64_t set, unsigned seat) { return (set & room_seat(seat)) != 0; }

/* The seats of an office that are in a set, none for an office above 15; and whether there are any. Of the members of
 * a start notice or a view they are those that it goes to. */
static inline uint64_t room_seats_of(uint64_t set, unsigned office) {
    const uint64_t four = ((uint64_t)1 << ROOM_OFFICE_SEATS) - 1;
    return office < ROOM_OFFICES ? set & four << ROOM_OFFICE_SEATS * office : 0;
}
static inline int room_has_office(uint64_t set, unsigned office) { return room_seats_of(set, office) != 0; }

/* ---- Records: docs/LAYOUT.md ---- */

enum room_record {
    ROOM_NO_RECORD = 0,
    ROOM_REPORT = 1,
    ROOM_PROPOSAL = 2,
    ROOM_NOTICE = 3,
    ROOM_VIEW = 4,
    ROOM_SYNC = 5,
    ROOM_MARK = 6
};

enum room_proposal_kind { ROOM_FAST = 1, ROOM_SLOW = 2 };

struct room_report { uint8_t room; uint64_t joining, leaving; };
struct room_proposal {
    uint8_t room, sender, kind;
    uint64_t members;
    uint32_t start, number, used[ROOM_OFFICES];
};
struct room_notice { uint8_t room; uint32_t start; uint64_t members; };
struct room_view { uint8_t room; uint32_t number; uint64_t members; uint32_t starts[ROOM_OFFICES]; };
struct room_sync { uint8_t seat; uint32_t start, previous; };
struct room_mark { uint32_t number, again; };

/* Which record begins here, by its mark alone; and the length of each. */
ROOM_CALL static inline enum room_record room_record_of(const uint8_t *bytes, size_t length) {
    switch (length < 2 ? 0 : bytes[0] * 256 + bytes[1]) {
    case 0x4E45: return ROOM_REPORT;
    case 0x5052: return ROOM_PROPOSAL;
    case 0x5343: return ROOM_NOTICE;
    case 0x5657: return ROOM_VIEW;
    case 0x5359: return ROOM_SYNC;
    case 0x484D: return ROOM_MARK;
    default: return ROOM_NO_RECORD;
    }
}

static inline size_t room_record_bytes(enum room_record record) {
    switch (record) {
    case ROOM_REPORT: return ROOM_REPORT_BYTES;
    case ROOM_PROPOSAL: return ROOM_PROPOSAL_BYTES;
    case ROOM_NOTICE: return ROOM_NOTICE_BYTES;
    case ROOM_VIEW: return ROOM_VIEW_BYTES;
    case ROOM_SYNC: return ROOM_SYNC_BYTES;
    case ROOM_MARK: return ROOM_MARK_BYTES;
    case ROOM_NO_RECORD: break;
    }
    return 0;
}

/* The room of a report, a proposal, a start notice or a view, where the byte is there: any byte, so it may be above 7.
 * 256 for all else. Who picks a row, a desk's words or a sheet by it sees first that it is below ROOM_ROOMS. */
ROOM_CALL static inline unsigned room_record_room(const uint8_t *bytes, size_t length) {
    switch (length < 3 ? ROOM_NO_RECORD : room_record_of(bytes, length)) {
    case ROOM_REPORT:
    case ROOM_PROPOSAL:
    case ROOM_NOTICE:
    case ROOM_VIEW: return bytes[2];
    case ROOM_SYNC:
    case ROOM_MARK:
    case ROOM_NO_RECORD: break;
    }
    return 256;
}

/* The two kinds of field: a number in four bytes, a set of seats in eight, most significant byte first. */
ROOM_CALL static inline uint32_t room_get_number(const uint8_t *at) {
    return (uint32_t)at[0] << 24 | (uint32_t)at[1] << 16 | (uint32_t)at[2] << 8 | at[3];
}

ROOM_CALL static inline uint64_t room_get_set(const uint8_t *at) {
    return (uint64_t)room_get_number(at) << 32 | room_get_number(at + 4);
}

ROOM_NONNULL static inline void room_put_number(uint8_t *at, uint32_t number) {
    for (int i = 0; i < 4; i++) at[i] = (uint8_t)(number >> (24 - 8 * i));
}

ROOM_NONNULL static inline void room_put_set(uint8_t *at, uint64_t set) {
    room_put_number(at, (uint32_t)(set >> 32));
    room_put_number(at + 4, (uint32_t)set);
}

/* Reading, of a record alone: 1 where the bytes have its mark and its length, and the fields are put into the
 * struct; else 0, and the struct stays. Writing, to the start of `out`: the bytes written, or 0 where the capacity
 * is less, and then no byte is touched. Neither looks at what stands in a field; the calls that are handed the
 * record do. */
ROOM_CALL static inline int room_is(enum room_record record, const uint8_t *bytes, size_t length) {
    return room_record_of(bytes, length) == record && length == room_record_bytes(record);
}

ROOM_CALL static inline int room_report_read(const uint8_t *bytes, size_t length, struct room_report *r) {
    if (!room_is(ROOM_REPORT, bytes, length)) return 0;
    r->room = bytes[2];
    r->joining = room_get_set(bytes + 3);
    r->leaving = room_get_set(bytes + 11);
    return 1;
}

/* room_report_write is one of the proved calls. */

ROOM_CALL static inline int room_proposal_read(const uint8_t *bytes, size_t length, struct room_proposal *p) {
    if (!room_is(ROOM_PROPOSAL, bytes, length)) return 0;
    p->room = bytes[2];
    p->sender = bytes[3];
    p->kind = bytes[4];
    p->members = room_get_set(bytes + 5);
    p->start = room_get_number(bytes + 13);
    p->number = room_get_number(bytes + 17);
    for (int o = 0; o < ROOM_OFFICES; o++) p->used[o] = room_get_number(bytes + 21 + 4 * o);
    return 1;
}

ROOM_CALL static inline uint32_t room_proposal_write(const struct room_proposal *p, uint8_t *out, size_t capacity) {
    if (capacity < ROOM_PROPOSAL_BYTES) return 0;
    out[0] = 'P';
    out[1] = 'R';
    out[2] = p->room;
    out[3] = p->sender;
    out[4] = p->kind;
    room_put_set(out + 5, p->members);
    room_put_number(out + 13, p->start);
    room_put_number(out + 17, p->number);
    for (int o = 0; o < ROOM_OFFICES; o++) room_put_number(out + 21 + 4 * o, p->used[o]);
    return ROOM_PROPOSAL_BYTES;
}

ROOM_CALL static inline int room_notice_read(const uint8_t *bytes, size_t length, struct room_notice *n) {
    if (!room_is(ROOM_NOTICE, bytes, length)) return 0;
    n->room = bytes[2];
    n->start = room_get_number(bytes + 3);
    n->members = room_get_set(bytes + 7);
    return 1;
}

ROOM_CALL static inline uint32_t room_notice_write(const struct room_notice *n, uint8_t *out, size_t capacity) {
    if (capacity < ROOM_NOTICE_BYTES) return 0;
    out[0] = 'S';
    out[1] = 'C';
    out[2] = n->room;
    room_put_number(out + 3, n->start);
    room_put_set(out + 7, n->members);
    return ROOM_NOTICE_BYTES;
}

ROOM_CALL static inline int room_view_read(const uint8_t *bytes, size_t length, struct room_view *v) {
    if (!room_is(ROOM_VIEW, bytes, length)) return 0;
    v->room = bytes[2];
    v->number = room_get_number(bytes + 3);
    v->members = room_get_set(bytes + 7);
    for (int o = 0; o < ROOM_OFFICES; o++) v->starts[o] = room_get_number(bytes + 15 + 4 * o);
    return 1;
}

ROOM_CALL static inline uint32_t room_view_write(const struct room_view *v, uint8_t *out, size_t capacity) {
    if (capacity < ROOM_VIEW_BYTES) return 0;
    out[0] = 'V';
    out[1] = 'W';
    out[2] = v->room;
    room_put_number(out + 3, v->number);
    room_put_set(out + 7, v->members);
    for (int o = 0; o < ROOM_OFFICES; o++) room_put_number(out + 15 + 4 * o, v->starts[o]);
    return ROOM_VIEW_BYTES;
}

ROOM_CALL static inline int room_sync_read(const uint8_t *bytes, size_t length, struct room_sync *s) {
    if (!room_is(ROOM_SYNC, bytes, length)) return 0;
    s->seat = bytes[2];
    s->start = room_get_number(bytes + 3);
    s->previous = room_get_number(bytes + 7);
    return 1;
}

ROOM_CALL static inline uint32_t room_sync_write(const struct room_sync *s, uint8_t *out, size_t capacity) {
    if (capacity < ROOM_SYNC_BYTES) return 0;
    out[0] = 'S';
    out[1] = 'Y';
    out[2] = s->seat;
    room_put_number(out + 3, s->start);
    room_put_number(out + 7, s->previous);
    return ROOM_SYNC_BYTES;
}

ROOM_CALL static inline int room_mark_read(const uint8_t *bytes, size_t length, struct room_mark *m) {
    if (!room_is(ROOM_MARK, bytes, length)) return 0;
    m->number = room_get_number(bytes + 2);
    m->again = room_get_number(bytes + 6);
    return 1;
}

ROOM_CALL static inline uint32_t room_mark_write(const struct room_mark *m, uint8_t *out, size_t capacity) {
    if (capacity < ROOM_MARK_BYTES) return 0;
    out[0] = 'H';
    out[1] = 'M';
    room_put_number(out + 2, m->number);
    room_put_number(out + 6, m->again);
    return ROOM_MARK_BYTES;
}

/* ---- What room_step wrote, record by record ----
 *
 *     struct room_sent s = room_sent_in(out, room_value(answer));
 *     while (room_next(&s)) .. s.record, s.bytes, s.length, s.room, s.members, s.to_seats
 */
struct room_sent {
    const uint8_t *rest; /* what is still to be taken, and how much */
    size_t left;
    enum room_record record; /* ROOM_NOTICE, ROOM_PROPOSAL or ROOM_VIEW */
    const uint8_t *bytes;
    size_t length;
    uint8_t room; /* any byte; 0 to 7 in what room_step wrote */
    uint64_t members;
    int to_seats; /* 1: to this office's seats in the members; 0: to the other offices of the members */
};

ROOM_CALL static inline struct room_sent room_sent_in(const uint8_t *out, uint64_t written) {
    struct room_sent s = {out, (size_t)written, ROOM_NO_RECORD, out, 0, 0, 0, 0};
    return s;
}

/* 1 where a whole start notice, proposal or view was taken; 0 where nothing is left, or something else. */
ROOM_CALL static inline int room_next(struct room_sent *s) {
    enum room_record record = room_record_of(s->rest, s->left);
    size_t length = room_record_bytes(record);
    if ((record != ROOM_NOTICE && record != ROOM_PROPOSAL && record != ROOM_VIEW) || length > s->left) return 0;
    s->record = record;
    s->bytes = s->rest;
    s->length = length;
    s->room = s->bytes[2];
    s->to_seats = record != ROOM_PROPOSAL;
    s->members = room_get_set(s->bytes + (s->to_seats ? 7 : 5));
    s->rest += length;
    s->left -= length;
    return 1;
}

/* ---- The words of a desk: docs/LAYOUT.md ---- */

/* Of ROOM_DESK_WORDS words: the seat; and in a room the last start number, the last view number and whether a change
 * is open, 0 for a room above 7. */
ROOM_CALL static inline uint32_t room_desk_seat(const uint32_t *desk) { return desk[0]; }

ROOM_CALL static inline uint32_t room_desk_start(const uint32_t *desk, unsigned room) {
    return room < ROOM_ROOMS ? desk[1 + 3 * room] : 0;
}

ROOM_CALL static inline uint32_t room_desk_view(const uint32_t *desk, unsigned room) {
    return room < ROOM_ROOMS ? desk[2 + 3 * room] : 0;
}

ROOM_CALL static inline int room_desk_open(const uint32_t *desk, unsigned room) {
    return room < ROOM_ROOMS && desk[3 + 3 * room] != 0;
}

#ifdef __cplusplus
}
#endif

#endif
