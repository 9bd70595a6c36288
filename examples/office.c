/* A small office with two rooms in use: office 0 makes its table, is handed the records of a morning in room 0 and of
 * another session in room 5, and says in words what it is told to send, and to whom, and for each room the current
 * view and whom it waits for. Link with libroom.a or libroom.so. */
#include "common.h"

static uint32_t table[ROOM_TABLE_WORDS];

static void make(const char *what, uint8_t office, size_t words) {
    uint8_t refused = room_fresh(office, table, words);
    printf("%s: %d, %s\n", what, refused, room_refusal_text(refused));
}

/* How a room stands. */
static void say_room(const char *before, uint8_t room, const char *after) {
    uint32_t answer = room_waiting_for(table, ROOM_TABLE_WORDS, room);
    unsigned refused = room_refused(answer), waits = (unsigned)room_value(answer);
    printf("%sroom %u: ", before, room);
    if (refused) printf("%u, %s", refused, room_refusal_text(refused));
    else printf("view %u, waits for ", room_view_number(table, ROOM_TABLE_WORDS, room));
    if (waits < ROOM_OFFICES) printf("office %u", waits);
    else if (!refused) printf("nobody");
    printf("%s", after);
}

/* One record handed in: its room byte picks the room. */
static void hand(const char *what, const uint8_t *record, size_t length, size_t capacity) {
    uint8_t out[ROOM_OUTPUT_BYTES];
    uint32_t answer = room_step(0, table, ROOM_TABLE_WORDS, record, length, out, capacity);
    unsigned refused = room_refused(answer), written = (unsigned)room_value(answer);
    printf("%s: %u, %s, %u bytes\n", what, refused, room_refusal_text(refused), written);

    struct room_sent s = room_sent_in(out, written);
    while (room_next(&s)) say_sent(0, &s);
    say_room("  ", 0, "; "), say_room("", 5, "\n");
}

static void join(const char *what, uint8_t room, unsigned seat, size_t capacity) {
    uint8_t report[ROOM_REPORT_BYTES];
    hand(what, report, room_report_write(room, room_seat(seat), 0, report, sizeof report), capacity);
}

int main(void) {
    uint8_t proposal[ROOM_PROPOSAL_BYTES], report[ROOM_REPORT_BYTES];
    struct room_proposal one = {.room = 0, .sender = 1, .kind = ROOM_FAST, .start = 1, .number = 1};
    one.members = room_seat(0) | room_seat(4);
    size_t proposed = room_proposal_write(&one, proposal, sizeof proposal);

    make("a table for office 16", 16, ROOM_TABLE_WORDS);
    make("a table for office 0 in the words of one state", 0, ROOM_STATE_WORDS);
    make("a table for office 0", 0, ROOM_TABLE_WORDS);

    join("seat 0 joins room 0", 0, 0, ROOM_OUTPUT_BYTES);
    join("seat 4 joins room 0, with an output of a byte less", 0, 4, ROOM_OUTPUT_BYTES - 1);
    join("seat 4 joins room 0", 0, 4, ROOM_OUTPUT_BYTES);
    join("seat 1 joins room 5", 5, 1, ROOM_OUTPUT_BYTES);
    join("seat 4 joins room 0, reported again", 0, 4, ROOM_OUTPUT_BYTES);
    join("seat 0 joins room 5", 5, 0, ROOM_OUTPUT_BYTES);

    /* A proposal of another room calls for nothing in this one. */
    one.room = 5, proposed = room_proposal_write(&one, proposal, sizeof proposal);
    hand("office 1 proposes in room 5", proposal, proposed, ROOM_OUTPUT_BYTES);
    one.room = 0, proposed = room_proposal_write(&one, proposal, sizeof proposal);
    hand("office 1 proposes in room 0", proposal, proposed, ROOM_OUTPUT_BYTES);
    hand("office 1 proposes the same again", proposal, proposed, ROOM_OUTPUT_BYTES);
    one.room = ROOM_ROOMS, proposed = room_proposal_write(&one, proposal, sizeof proposal);
    hand("office 1 proposes in room 8", proposal, proposed, ROOM_OUTPUT_BYTES);
    /* The record is read before the output is looked at. */
    hand("office 1 proposes in room 8, with an output of no bytes", proposal, proposed, 0);

    printf("a report of room 8: %u bytes\n", room_report_write(ROOM_ROOMS, one.members, 0, report, sizeof report));
    say_room("", ROOM_ROOMS, "\n");
    return 0;
}
