/* The questions of the desk program, which want no state of an office: have these bytes the mark and the length of a
 * report or a proposal, which offices does a set of seats concern, how many are they; and does a record read for an
 * office, or why is it rejected? Then a desk at work in two rooms: seat 0 hears what its office sends it, and says in
 * words what it knows. It has one row of words for all rooms, and a sheet for each: the room of a record picks what it
 * is about. Link with libroom.a or libroom.so. */
#include "common.h"

#include <string.h>

static uint32_t office[ROOM_TABLE_WORDS], desk[ROOM_DESK_WORDS];
static uint8_t out[ROOM_OUTPUT_BYTES];

/* Of each room: the sheet, and the view that the desk's own last sync record names. */
static struct {
    uint8_t sheet[ROOM_SHEET_BYTES], view[ROOM_VIEW_BYTES];
    size_t length;
    uint32_t previous;
} rooms[ROOM_ROOMS];

static void say_offices(const char *what, uint64_t set) {
    printf("%s, %d", what, room_office_count(set));
    say_set(": ", room_offices(set), "\n");
}

/* One record: the number by checks 4 and 5, and for one that passes the offices of its sets. */
static void show(const char *what, const uint8_t *record, size_t length) {
    struct room_report r;
    struct room_proposal p;
    uint8_t refused = room_record_check(record, length);
    printf("%s, length %zu: %d, %s\n", what, length, refused, room_refusal_text(refused));
    if (room_report_read(record, length, &r)) {
        say_offices("  offices that join", r.joining);
        say_offices("  offices that leave", r.leaving);
    } else if (room_proposal_read(record, length, &p)) {
        say_offices("  offices of the members", p.members);
    }
}

/* One record on its way to an office: a broken one is rejected here, by the first reason, with no table at hand. */
static void pass(const char *what, uint8_t to, const uint8_t *record, size_t length) {
    uint8_t refused = room_read(to, record, length);
    if (refused) printf("%s: rejected by %d, %s\n", what, refused, room_refusal_text(refused));
    else printf("%s: passed on\n", what);
}

/* A record for each reason. Of the first proposal the used number for office 0 is one that this office may not have
 * reached: that is for its table to say. */
static void pass_all(uint64_t both) {
    /* room, sender, kind, members, start number, proposal number, used numbers */
    const struct { const char *what; uint8_t to; struct room_proposal p; } proposals[] = {
        {"a proposal of office 1 for office 0", 0, {7, 1, ROOM_SLOW, both, 1, 3, {9, 2}}},
        {"the same for office 1", 1, {7, 1, ROOM_SLOW, both, 1, 3, {9, 2}}},
        {"the same for office 2", 2, {7, 1, ROOM_SLOW, both, 1, 3, {9, 2}}},
        {"the same for office 16", 16, {7, 1, ROOM_SLOW, both, 1, 3, {9, 2}}},
        {"one of room 8", 0, {8, 1, ROOM_SLOW, both, 1, 3, {9, 2}}},
        {"one of office 16", 0, {7, 16, ROOM_SLOW, both, 1, 3, {9, 2}}},
        {"one of kind 3", 0, {7, 1, 3, both, 1, 3, {9, 2}}},
        {"one with start number 0", 0, {7, 1, ROOM_SLOW, both, 0, 3, {9, 2}}},
        {"one without a seat of office 1", 0, {7, 1, ROOM_SLOW, room_seat(0), 1, 3, {9}}},
        {"one that has used a number of office 2", 0, {7, 1, ROOM_SLOW, both, 1, 3, {9, 2, 1}}},
        {"one that has used itself", 0, {7, 1, ROOM_SLOW, both, 1, 3, {9, 3}}},
    };
    uint8_t record[ROOM_PROPOSAL_BYTES], notice[ROOM_NOTICE_BYTES] = "SC";
    for (size_t i = 0; i < sizeof proposals / sizeof *proposals; i++) {
        size_t length = room_proposal_write(&proposals[i].p, record, sizeof record);
        pass(proposals[i].what, proposals[i].to, record, length);
    }
    size_t length = room_report_write(7, both, both, record, sizeof record);
    pass("a report for office 15", 15, record, length);
    pass("the same, cut", 15, record, length - 1);
    record[2] = ROOM_ROOMS, pass("one of room 8", 15, record, length);
    pass("a start notice for office 15", 15, notice, sizeof notice);
    pass("nothing for office 15", 15, record, 0);
    pass("nothing for office 16", 16, record, 0);
}

/* A sync record, its own or another desk's, goes on the sheet of its room. It does not say which that is; whoever
 * hands it over must know. */
static void put(unsigned room, const uint8_t *record) {
    struct room_sync s;
    if (rooms[room].length + ROOM_SYNC_BYTES > sizeof rooms[room].sheet) return;
    memcpy(rooms[room].sheet + rooms[room].length, record, ROOM_SYNC_BYTES);
    rooms[room].length += ROOM_SYNC_BYTES;
    if (!room_sync_read(record, ROOM_SYNC_BYTES, &s)) return;
    printf("  on the sheet of room %u: seat %u, ", room, s.seat);
    printf("start number %u, previous view %u\n", s.start, s.previous);
}

/* Who came along to the last view of a room. */
static void ask(unsigned room) {
    uint64_t along = 0;
    uint32_t answer = room_came_along(rooms[room].sheet, rooms[room].length, rooms[room].view, ROOM_VIEW_BYTES,
                                      rooms[room].previous, &along);
    printf("  who came along in room %u from view %u to %u: ", room, rooms[room].previous, room_desk_view(desk, room));
    if (room_value(answer)) printf("the record of seat %u is missing\n", (unsigned)room_value(answer) - 1);
    else say_set("", along, "\n");
}

/* One start notice or view for the desk, and what the desk knows of that room then. */
static void hear(const char *what, const uint8_t *record, size_t length) {
    unsigned room = room_record_room(record, length), refused = room_desk_hear(desk, ROOM_DESK_WORDS, record, length);
    uint8_t sync[ROOM_SYNC_BYTES];
    printf("  room %u, %s: %u, %s", room, what, refused, room_refusal_text(refused));
    if (room >= ROOM_ROOMS) printf("\n");
    else if (room_desk_open(desk, room)) printf("; a change is open, start number %u\n", room_desk_start(desk, room));
    else printf("; view %u, no change open\n", room_desk_view(desk, room));
    if (refused) return;
    if (room_record_of(record, length) == ROOM_VIEW) {
        memcpy(rooms[room].view, record, ROOM_VIEW_BYTES);
        ask(room);
    } else if (room_desk_sync(desk, ROOM_DESK_WORDS, (uint8_t)room, sync, sizeof sync)) {
        rooms[room].previous = room_desk_view(desk, room);
        put(room, sync);
    }
}

/* One record handed to the office; of what it writes, the desk hears what is for its seat. */
static void hand(const char *what, const uint8_t *record, size_t length) {
    static const char *const names[] = {[ROOM_NOTICE] = "start notice", [ROOM_VIEW] = "view"};
    uint32_t answer = room_step(0, office, ROOM_TABLE_WORDS, record, length, out, sizeof out);
    struct room_sent s = room_sent_in(out, room_value(answer));
    printf("%s: %u bytes\n", what, (unsigned)room_value(answer));
    while (room_next(&s)) {
        if (s.to_seats && room_has(s.members, 0)) hear(names[s.record], s.bytes, s.length);
    }
}

/* Seats join and leave a room. */
static void report(const char *what, uint8_t room, uint64_t joining, uint64_t leaving) {
    uint8_t record[ROOM_REPORT_BYTES];
    hand(what, record, room_report_write(room, joining, leaving, record, sizeof record));
}

/* The sync record of seat 4 comes for a room. */
static void other(unsigned room, uint32_t start, uint32_t previous) {
    const struct room_sync four = {4, start, previous};
    uint8_t record[ROOM_SYNC_BYTES];
    printf("the desk of seat 4 sends its record in room %u\n", room);
    if (room_sync_write(&four, record, sizeof record)) put(room, record);
}

int main(void) {
    const uint64_t both = room_seat(0) | room_seat(4);
    struct room_proposal one = {.sender = 1, .kind = ROOM_FAST, .members = both, .start = 1, .number = 1};
    uint8_t record[ROOM_REPORT_BYTES + 1] = {0}, proposal[ROOM_PROPOSAL_BYTES], notice[ROOM_NOTICE_BYTES] = "SC";
    size_t proposed = room_proposal_write(&one, proposal, sizeof proposal);
    size_t length = room_report_write(0, both, room_seat(63), record, sizeof record);

    show("report", record, length);
    show("proposal", proposal, proposed);
    show("report, cut", record, length - 1);
    show("report, one byte too many", record, length + 1);
    show("proposal, cut", proposal, length);
    show("start notice", notice, sizeof notice);
    show("one byte of a report", record, 1);
    show("nothing", record, 0);
    say_offices("offices of no seat", 0);
    say_offices("offices of seats 3, 4 and 7", room_seat(3) | room_seat(4) | room_seat(7));
    say_offices("offices of all seats", UINT64_MAX);
    pass_all(both);

    printf("the desk of seat 64: %d\n", room_desk_fresh(64, desk, ROOM_DESK_WORDS));
    printf("the desk of seat 0 in too few words: %d\n", room_desk_fresh(0, desk, ROOM_DESK_WORDS - 1));
    printf("the desk of seat 0: %d\n", room_desk_fresh(0, desk, ROOM_DESK_WORDS));
    if (room_fresh(0, office, ROOM_TABLE_WORDS)) return 1;

    /* Two sync records of seat 0 with start number 1: each room has its sheet, so each counts for its own view. */
    report("seat 0 joins room 0", 0, room_seat(0), 0);
    report("seats 0 and 4 join room 3", 3, both, 0);
    other(3, 1, 0);
    one.room = 3;
    hand("office 1 proposes in room 3", proposal, room_proposal_write(&one, proposal, sizeof proposal));
    hear("the same view again", out, ROOM_VIEW_BYTES);
    out[2] = 0, hear("the same view as one of another room", out, ROOM_VIEW_BYTES);
    out[2] = ROOM_ROOMS, hear("the same view as one of no room", out, ROOM_VIEW_BYTES);

    report("seat 4 joins room 0", 0, room_seat(4), 0);
    one.room = 0;
    hand("office 1 proposes in room 0", proposal, room_proposal_write(&one, proposal, sizeof proposal));
    other(0, 1, 0), ask(0);
    report("seat 0 leaves room 0", 0, 0, room_seat(0));
    report("seat 0 comes back", 0, room_seat(0), 0);
    hear("the same start notice again", out, ROOM_NOTICE_BYTES);

    /* Office 1 has had a view of seat 4 alone meanwhile, view 4. */
    one.start = 4, one.number = 3, one.used[0] = 2, one.used[1] = 2;
    other(0, 4, 4);
    hand("office 1 proposes again", proposal, room_proposal_write(&one, proposal, sizeof proposal));
    return 0;
}
