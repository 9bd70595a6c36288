/* An office that loses its current: office 0 keeps a real file of high marks, one for all its rooms; two are in use.
 * Before a record leaves, it asks whether a mark must stand in the file; when it starts again, every room begins at
 * the last whole one. So no number leaves twice. Link with libroom.a or libroom.so. */
#define _POSIX_C_SOURCE 200809L
#include "common.h"

#include <stdlib.h>
#include <string.h>
#include <unistd.h>

static struct {
    uint32_t table[ROOM_TABLE_WORDS];
    uint32_t last; /* the number of the last mark in the file */
    off_t place;   /* where the next mark belongs */
    size_t reach;  /* how many bytes of a mark reach the file; where they are too few, the current is lost there */
} office;
static int file;
static uint8_t record[ROOM_PROPOSAL_BYTES]; /* the record that is handed in */

/* Where the disk fails the office stops: no record may leave before its mark is there. */
static void stop(const char *what) {
    fprintf(stderr, "%s\n", what);
    exit(1);
}

/* The first start and every later one: the file is all that there is, and nothing else of the office is looked at. */
static void start(void) {
    uint8_t bytes[ROOM_FILE_BYTES + 1]; /* one more than a file may have, so that a longer one is refused */
    ssize_t length = pread(file, bytes, sizeof bytes, 0);
    if (length < 0) stop("the file cannot be read");
    memset(&office, 0xAA, sizeof office);
    uint8_t refused = room_restart(0, bytes, (size_t)length, office.table, ROOM_TABLE_WORDS);
    printf("office 0 starts with a file of %zd bytes: %d, %s\n", length, refused, room_refusal_text(refused));
    if (refused) return;
    office.last = (uint32_t)room_value(room_last_mark(bytes, (size_t)length));
    office.place = length / ROOM_MARK_BYTES * ROOM_MARK_BYTES;
    office.reach = ROOM_MARK_BYTES;
    printf("  the numbers of rooms 0 to 7 begin at");
    for (uint8_t room = 0; room < ROOM_ROOMS; room++) {
        printf(" %u", room_view_number(office.table, ROOM_TABLE_WORDS, room));
    }
    printf("\n  the next mark belongs at byte %d\n", (int)office.place);
}

/* The mark that is due before the record, if one is; 0 where it is not whole in the file. */
static int keep_mark(const struct room_sent *s) {
    uint8_t mark[ROOM_MARK_BYTES];
    uint64_t before = room_mark_before(office.last, s->bytes, s->length, mark, sizeof mark);
    if (room_refused(before)) stop("this is not what room_step wrote");
    if (room_before_mark(before) == office.last) return 1;
    if (pwrite(file, mark, office.reach, office.place) != (ssize_t)office.reach || fdatasync(file) != 0) {
        stop("the mark cannot be written");
    }
    office.last = room_before_mark(before);
    printf("  into the file: mark %u, %zu bytes from byte %d on\n", office.last, office.reach, (int)office.place);
    office.place += ROOM_MARK_BYTES;
    return office.reach == sizeof mark;
}

static void hand(const char *what, size_t length) {
    uint8_t out[ROOM_OUTPUT_BYTES];
    uint32_t answer = room_step(0, office.table, ROOM_TABLE_WORDS, record, length, out, sizeof out);
    struct room_sent s = room_sent_in(out, room_value(answer));
    printf("%s: refusal %u, %u bytes\n", what, room_refused(answer), (unsigned)room_value(answer));
    while (room_next(&s) && keep_mark(&s)) say_sent(0, &s);
    if (office.reach < ROOM_MARK_BYTES) printf("  the current is lost\n");
}

static void join(const char *what, uint8_t room, uint64_t seats) {
    hand(what, room_report_write(room, seats, 0, record, sizeof record));
}

int main(void) {
    const uint64_t both = room_seat(0) | room_seat(4);
    /* room, sender, kind, members, start number, proposal number, used numbers */
    const struct room_proposal first = {0, 1, ROOM_FAST, both, 1, 1, {0}};
    const struct room_proposal high = {0, 1, ROOM_SLOW, both, 2, 3000000, {1, 1}};
    const struct room_proposal later = {0, 1, ROOM_FAST, both, 4, 3000002, {1, 3000001}};
    char path[] = "office-0.XXXXXX"; /* a file that is kept keeps its name, and its folder is written too: fsync */
    if ((file = mkstemp(path)) < 0 || unlink(path) != 0) stop("no file can be made");

    /* The mark that room 0 needed serves room 6 too. */
    start();
    join("seats 0 and 4 join room 0", 0, both);
    join("seat 0 joins room 6", 6, room_seat(0));
    hand("office 1 proposes in room 0", room_proposal_write(&first, record, sizeof record));
    office.reach = 4;
    hand("office 1 proposes in room 0 with a high number", room_proposal_write(&high, record, sizeof record));

    /* The next mark goes over the unfinished one. The last is due for the number of office 1 that the view used. */
    start();
    join("seats 0 and 4 join room 0", 0, both);
    hand("office 1 proposes in room 0", room_proposal_write(&later, record, sizeof record));
    join("seat 0 joins room 6", 6, room_seat(0));
    join("seat 1 joins room 0", 0, room_seat(1));

    /* So room 6 begins as far up as room 0 does. */
    printf("the current is lost\n");
    start();
    join("seat 0 joins room 6", 6, room_seat(0));

    printf("the last byte of the second mark is damaged, and the current is lost\n");
    if (pwrite(file, "?", 1, 2 * ROOM_MARK_BYTES - 1) != 1) stop("the file cannot be written");
    start();
    return 0;
}
