/* Who came along from the old view: two offices and three desks in one room. Each desk hears what its office sends it,
 * and after a start notice it makes its sync record for the others. The records are put on a sheet; once a view has
 * come, a desk asks the sheet. examples/desk.c has a sheet for each room. Link with libroom.a or libroom.so. */
#include "common.h"

#include <string.h>

static const uint8_t room = 2; /* all of this is about one room, and the sheet is that room's */

/* By their seats: 0 and 1 are at office 0, 4 at office 1. */
static struct desk {
    uint8_t sync[ROOM_SYNC_BYTES], view[ROOM_VIEW_BYTES]; /* its last sync record, its last view */
    uint32_t words[ROOM_DESK_WORDS], previous;            /* .. and the view that the sync record names */
} desks[5];
static uint32_t offices[2][ROOM_TABLE_WORDS];
static uint8_t sheet[ROOM_SHEET_BYTES];
static size_t length; /* of the sheet */

/* A start notice or a view for a desk. */
static void hear(unsigned seat, const struct room_sent *s) {
    struct desk *d = &desks[seat];
    if (room_desk_hear(d->words, ROOM_DESK_WORDS, s->bytes, s->length)) return;
    if (s->record == ROOM_VIEW) {
        memcpy(d->view, s->bytes, sizeof d->view);
        printf("  seat %u: view %u\n", seat, room_desk_view(d->words, room));
    } else if (room_desk_sync(d->words, ROOM_DESK_WORDS, room, d->sync, sizeof d->sync)) {
        d->previous = room_desk_view(d->words, room);
        printf("  seat %u: start notice; its sync record has start number %u and previous view %u\n", seat,
               room_desk_start(d->words, room), d->previous);
    }
}

/* One record handed to an office; what it writes goes to its desks or to the other office. */
static void hand(uint8_t office, const uint8_t *record, size_t bytes) {
    uint8_t out[ROOM_OUTPUT_BYTES];
    uint32_t answer = room_step(office, offices[office], ROOM_TABLE_WORDS, record, bytes, out, sizeof out);
    struct room_sent s = room_sent_in(out, room_value(answer));
    while (room_next(&s)) {
        if (!s.to_seats) hand(office == 0, s.bytes, s.length);
        for (unsigned seat = 0; s.to_seats && seat < ROOM_SEATS; seat++) {
            if (room_has(room_seats_of(s.members, office), seat)) hear(seat, &s);
        }
    }
}

/* Both offices are told who joins and leaves. */
static void report(const char *what, uint64_t joining, uint64_t leaving) {
    uint8_t record[ROOM_REPORT_BYTES];
    size_t bytes = room_report_write(room, joining, leaving, record, sizeof record);
    printf("%s\n", what);
    hand(0, record, bytes), hand(1, record, bytes);
}

static void put(unsigned seat) {
    memcpy(sheet + length, desks[seat].sync, ROOM_SYNC_BYTES);
    length += ROOM_SYNC_BYTES;
    printf("  on the sheet: the record of seat %u\n", seat);
}

/* A desk that has its view asks. */
static void ask(unsigned seat) {
    const struct desk *d = &desks[seat];
    uint64_t along = 0;
    uint32_t answer = room_came_along(sheet, length, d->view, sizeof d->view, d->previous, &along);
    printf("  who came along with seat %u from view %u to %u: ", seat, d->previous,
           room_desk_view(d->words, room));
    if (room_refused(answer)) printf("%u, %s\n", room_refused(answer), room_refusal_text(room_refused(answer)));
    else if (room_value(answer)) printf("the record of seat %u is missing\n", (unsigned)room_value(answer) - 1);
    else say_set("", along, "\n");
}

int main(void) {
    int bad = room_fresh(0, offices[0], ROOM_TABLE_WORDS) || room_fresh(1, offices[1], ROOM_TABLE_WORDS);
    for (uint8_t seat = 0; seat <= 4; seat++) bad |= room_desk_fresh(seat, desks[seat].words, ROOM_DESK_WORDS);
    if (bad) return 1;

    /* The records of view 2 stay on the sheet, and count for no other view. */
    report("seats 0 and 1 join", room_seat(0) | room_seat(1), 0);
    put(0), put(1), ask(0);
    report("seat 4 joins", room_seat(4), 0);
    ask(0), put(0), ask(0), put(4), ask(0), put(1), ask(0), ask(4);
    report("seat 1 leaves", 0, room_seat(1));
    put(4), put(0), ask(0);

    /* From the back: the first bad record decides, the sheet's length goes before them, and the view before all. */
    puts("the third record has a start number above 2,000,000,000"), sheet[2 * ROOM_SYNC_BYTES + 3] = 0x80, ask(0);
    puts("the second record is of seat 64"), sheet[ROOM_SYNC_BYTES + 2] = ROOM_SEATS, ask(0);
    puts("the mark of the first record is broken"), sheet[0] = '?', ask(0);
    puts("the last byte is lost"), length -= 1, ask(0);
    puts("the view is one of room 8"), desks[0].view[2] = ROOM_ROOMS, ask(0);
    return 0;
}
