/* What include/room_words.h does beside bytes that are written out here by docs/LAYOUT.md: answers taken apart, texts,
 * every record read and written, its room, the records of an output one after another, cut and damaged at every byte,
 * and the words of a desk. Every buffer has exactly its length, so that the address sanitizer sees a byte read behind
 * it. C and C++; no archive. The last line is 'N passed, M failed'. */
#include "room_words.h"

#include <stdio.h>
#include <stdlib.h>
#include <string.h>

static unsigned passed, failed;

static void verdict(int good, const char *name) {
    if (good) {
        passed++;
    } else {
        failed++;
        printf("FAILED: %s\n", name);
    }
}

/* A copy in a buffer of exactly this length. */
static uint8_t *lent(const void *bytes, size_t length) {
    uint8_t *made = (uint8_t *)malloc(length > 0 ? length : 1);
    if (made == NULL) {
        exit(1);
    }
    memcpy(made, bytes, length);
    return length > 0 ? made : made + 1; /* of length 0: a place that may not be read */
}

static void give_back(uint8_t *bytes, size_t length) { free(length > 0 ? bytes : bytes - 1); }

/* Each record by hand, each of another room, also of one above 7. Sixteen numbers: 0, 1, 2 .. and the last
 * 2,000,000,000, 77 35 94 00. */
#define SIXTEEN \
    "\0\0\0\0" "\0\0\0\1" "\0\0\0\2" "\0\0\0\3" "\0\0\0\4" "\0\0\0\5" "\0\0\0\6" "\0\0\0\7" \
    "\0\0\0\x8" "\0\0\0\x9" "\0\0\0\xA" "\0\0\0\xB" "\0\0\0\xC" "\0\0\0\xD" "\0\0\0\xE" "\x77\x35\x94\0"
static const char report[] = "\x4E\x45" "\x06" "\x80\0\0\0\0\0\0\x11" "\x01\x23\x45\x67\x89\xAB\xCD\xEF";
static const char proposal[] =
    "\x50\x52" "\x05" "\x0F" "\2" "\xF0\1\2\3\4\5\6\7" "\x11\x22\x33\x44" "\xFF\xFE\xFD\xFC" SIXTEEN;
static const char notice[] = "\x53\x43" "\xC8" "\x77\x35\x94\0" "\xF0\1\2\3\4\5\6\7";
static const char view[] = "\x56\x57" "\x07" "\0\1\2\3" "\xF0\1\2\3\4\5\6\7" SIXTEEN;
static const char sync_record[] = "\x53\x59" "\x3F" "\0\0\1\0" "\x77\x35\x94\0";
static const char mark[] = "\x48\x4D" "\0\x0F\x42\x41" "\0\x0F\x42\x42";

static const uint64_t members = 0xF001020304050607u;

static const struct {
    enum room_record record;
    const char *bytes;
    size_t length;
    unsigned room; /* 256 where the record has none */
} all[] = {
    {ROOM_REPORT, report, 19, 6}, {ROOM_PROPOSAL, proposal, 85, 5},   {ROOM_NOTICE, notice, 15, 200},
    {ROOM_VIEW, view, 79, 7},     {ROOM_SYNC, sync_record, 11, 256}, {ROOM_MARK, mark, 10, 256},
};
enum { KINDS = 6 };

static int are_sixteen(const uint32_t *numbers) {
    int good = numbers[15] == 2000000000;
    for (uint32_t o = 0; o < 15; o++) {
        good &= numbers[o] == o;
    }
    return good;
}

static void answers(void) {
    uint64_t high = (uint64_t)2000000000 * 65536 + 85 * 256 + 3;
    verdict(room_refused(0) == 0 && room_value(0) == 0, "the answer 0");
    verdict(room_refused(185 * 256 + 20) == 20 && room_value(185 * 256 + 20) == 185, "the parts of an answer");
    verdict(room_refused(UINT64_MAX) == 255 && room_value(UINT64_MAX) == UINT64_MAX / 256, "the highest answer");
    verdict(room_value((uint64_t)2000000000 * 256 + 18) == 2000000000, "a mark of L is not cut");
    verdict(room_refused(high) == 3 && room_before_length(high) == 85 && room_before_mark(high) == 2000000000,
            "the three parts of what must happen before");
    verdict(room_seat(0) == 1 && room_seat(63) == (uint64_t)1 << 63 && room_seat(64) == 0 && room_seat(~0u) == 0,
            "the set of one seat");
    verdict(room_has(0x11, 4) && !room_has(0x11, 5) && room_has(UINT64_MAX, 63) && !room_has(UINT64_MAX, 64),
            "whether a set has a seat");

    int good = room_seats_of(0xF001020304050607u, 15) == 0xF000000000000000u && room_seats_of(0x1F7, 1) == 0xF0;
    for (unsigned o = 0; o < 20; o++) {
        for (unsigned s = 0; s < 64; s++) {
            uint64_t one = (uint64_t)1 << s;
            good &= room_seats_of(one, o) == (s / 4 == o ? one : 0) && room_has_office(one, o) == (s / 4 == o);
            good &= room_seats_of(~one, o) == (room_seats_of(UINT64_MAX, o) & ~one);
        }
        good &= room_has_office(UINT64_MAX, o) == (o < 16) && !room_has_office(0, o);
    }
    verdict(good && room_seats_of(UINT64_MAX, ~0u) == 0 && !room_has_office(UINT64_MAX, ~0u),
            "the seats of an office in a set");
}

static void texts(unsigned landed) {
    const char *unknown = room_refusal_text(landed + 1);
    for (unsigned a = 0; a <= landed; a++) {
        int good = strlen(room_refusal_text(a)) > 5 && strcmp(room_refusal_text(a), unknown) != 0;
        for (unsigned b = 0; b < a; b++) {
            good &= strcmp(room_refusal_text(a), room_refusal_text(b)) != 0;
        }
        verdict(good, "a text of its own for each number");
    }
    verdict(strlen(unknown) > 5 && strcmp(unknown, room_refusal_text(255)) == 0 &&
                strcmp(unknown, room_refusal_text(~0u)) == 0,
            "a text for every other number");
}

/* Reads the bytes as one kind of record: 1 where they are one and every field is as it stands above, 2 where they
 * are one and a field is another, 0 where they are none and the struct stays. */
static int read_as(enum room_record record, const uint8_t *bytes, size_t length) {
    struct {
        struct room_report r;
        struct room_proposal p;
        struct room_notice n;
        struct room_view v;
        struct room_sync s;
        struct room_mark m;
    } got, kept;
    int is = 0, good = 0;
    memset(&got, 0xA5, sizeof got);
    memset(&kept, 0xA5, sizeof kept);
    switch (record) {
    case ROOM_REPORT:
        is = room_report_read(bytes, length, &got.r);
        good = got.r.room == 6 && got.r.joining == 0x8000000000000011u && got.r.leaving == 0x0123456789ABCDEFu;
        break;
    case ROOM_PROPOSAL:
        is = room_proposal_read(bytes, length, &got.p);
        good = got.p.room == 5 && got.p.sender == 15 && got.p.kind == ROOM_SLOW && got.p.members == members &&
               got.p.start == 0x11223344 && got.p.number == 0xFFFEFDFCu && are_sixteen(got.p.used);
        break;
    case ROOM_NOTICE:
        is = room_notice_read(bytes, length, &got.n);
        good = got.n.room == 200 && got.n.start == 2000000000 && got.n.members == members;
        break;
    case ROOM_VIEW:
        is = room_view_read(bytes, length, &got.v);
        good = got.v.room == 7 && got.v.number == 0x010203 && got.v.members == members &&
               are_sixteen(got.v.starts);
        break;
    case ROOM_SYNC:
        is = room_sync_read(bytes, length, &got.s);
        good = got.s.seat == 63 && got.s.start == 256 && got.s.previous == 2000000000;
        break;
    case ROOM_MARK:
        is = room_mark_read(bytes, length, &got.m);
        good = got.m.number == 1000001 && got.m.again == 1000002;
        break;
    case ROOM_NO_RECORD: break;
    }
    return is ? (good ? 1 : 2) : memcmp(&got, &kept, sizeof got) == 0 ? 0 : 2;
}

/* The record of this kind, read from its bytes and written again; a report's writer is a proved call. */
static uint32_t write_as(enum room_record record, const uint8_t *bytes, size_t length, uint8_t *out, size_t capacity) {
    struct room_proposal p;
    struct room_notice n;
    struct room_view v;
    struct room_sync s;
    struct room_mark m;
    switch (record) {
    case ROOM_PROPOSAL: return room_proposal_read(bytes, length, &p) ? room_proposal_write(&p, out, capacity) : 1;
    case ROOM_NOTICE: return room_notice_read(bytes, length, &n) ? room_notice_write(&n, out, capacity) : 1;
    case ROOM_VIEW: return room_view_read(bytes, length, &v) ? room_view_write(&v, out, capacity) : 1;
    case ROOM_SYNC: return room_sync_read(bytes, length, &s) ? room_sync_write(&s, out, capacity) : 1;
    case ROOM_MARK: return room_mark_read(bytes, length, &m) ? room_mark_write(&m, out, capacity) : 1;
    case ROOM_REPORT:
    case ROOM_NO_RECORD: break;
    }
    return 1;
}

/* Every record is read as itself at its own length and as nothing else at any; and is written back where it fits. */
static void fields(void) {
    for (int k = 0; k < KINDS; k++) {
        int reads = 1, writes = 1;
        for (size_t length = 0; length <= all[k].length + 2; length++) {
            uint8_t long_enough[90] = {0};
            memcpy(long_enough, all[k].bytes, all[k].length);
            uint8_t *bytes = lent(long_enough, length);
            reads &= room_record_of(bytes, length) == (length < 2 ? ROOM_NO_RECORD : all[k].record);
            reads &= room_record_room(bytes, length) == (length < 3 ? 256 : all[k].room);
            for (int as = 0; as < KINDS; as++) {
                reads &= read_as(all[as].record, bytes, length) == (as == k && length == all[k].length);
            }
            if (all[k].record != ROOM_REPORT) {
                uint8_t *out = lent("................................................................................"
                                    "..........", length);
                uint32_t written = write_as(all[k].record, long_enough, all[k].length, out, length);
                writes &= written == (length < all[k].length ? 0 : all[k].length);
                writes &= memcmp(out, all[k].bytes, written) == 0;
                for (size_t i = written; i < length; i++) {
                    writes &= out[i] == '.';
                }
                give_back(out, length);
            }
            give_back(bytes, length);
        }
        verdict(room_record_bytes(all[k].record) == all[k].length, "the length of a record");
        verdict(reads, "a record is read as itself");
        verdict(writes, "a record is written where it fits");
    }
    verdict(room_record_bytes(ROOM_NO_RECORD) == 0, "no record has length 0");
}

/* The room of every record with every byte in its place; and of every mark that is none, which has no room. */
static void rooms(void) {
    int good = 1;
    for (int k = 0; k < KINDS; k++) {
        for (unsigned value = 0; value < 256; value++) {
            uint8_t *bytes = lent(all[k].bytes, all[k].length);
            bytes[2] = (uint8_t)value;
            good &= room_record_room(bytes, all[k].length) == (all[k].room == 256 ? 256 : value);
            bytes[0] ^= (uint8_t)(value | 0x80); /* no mark has this bit */
            good &= room_record_room(bytes, all[k].length) == 256;
            give_back(bytes, all[k].length);
        }
    }
    verdict(good, "the room of a record");
}

/* A desk's 25 words: word 0 the seat; of room r word 1 + 3r the start number, 2 + 3r the view number, 3 + 3r whether a
 * change is open, any word but 0. */
static void desk_words(void) {
    uint32_t words[25], *desk = (uint32_t *)malloc(sizeof words);
    int good = 1;
    if (desk == NULL) {
        exit(1);
    }
    for (uint32_t i = 0; i < 25; i++) {
        words[i] = 1000 + i;
    }
    words[3 + 3 * 2] = 0, words[3 + 3 * 7] = 0, words[3 + 3 * 5] = 0x80000000u;
    memcpy(desk, words, sizeof words);
    good &= room_desk_seat(desk) == 1000;
    for (uint32_t r = 0; r < 8; r++) {
        good &= room_desk_start(desk, r) == 1001 + 3 * r && room_desk_view(desk, r) == 1002 + 3 * r;
        good &= room_desk_open(desk, r) == (r != 2 && r != 7);
    }
    for (unsigned r = 8; r < 300; r++) {
        good &= room_desk_start(desk, r) == 0 && room_desk_view(desk, r) == 0 && room_desk_open(desk, r) == 0;
    }
    good &= room_desk_start(desk, ~0u) == 0 && room_desk_view(desk, ~0u) == 0 && room_desk_open(desk, ~0u) == 0;
    verdict(good && memcmp(desk, words, sizeof words) == 0, "the words of a desk");
    free(desk);
}

/* Goes through these bytes; the answer is how many records were taken. Each must be the next of the row and the rest
 * must begin behind it. */
static int taken(const uint8_t *bytes, size_t length, const int *row, int *good) {
    struct room_sent s = room_sent_in(bytes, length);
    size_t at = 0;
    int count = 0;
    for (; room_next(&s); count++) {
        *good &= count < 3 && s.record == all[row[count]].record && s.bytes == bytes + at &&
                 s.length == all[row[count]].length && s.room == bytes[at + 2] && s.members == members &&
                 s.to_seats == (s.record != ROOM_PROPOSAL);
        at += s.length;
        *good &= s.rest == bytes + at && s.left == length - at;
    }
    *good &= s.rest == bytes + at && s.left == length - at && !room_next(&s);
    return count;
}

/* The outputs of none to three records: whole, cut after every byte, with every byte as the room of each record, and
 * with every other value of both bytes of every mark, among them the marks of records that no office sends. */
static void output(const int *row, int count, unsigned long *cases) {
    uint8_t bytes[3 * 85];
    size_t starts[4] = {0, 0, 0, 0};
    int good = 1;
    for (int i = 0; i < count; i++) {
        memcpy(bytes + starts[i], all[row[i]].bytes, all[row[i]].length);
        starts[i + 1] = starts[i] + all[row[i]].length;
    }
    for (size_t length = 0; length <= starts[count]; length++, ++*cases) {
        uint8_t *cut = lent(bytes, length);
        int whole = 0;
        while (whole < count && starts[whole + 1] <= length) {
            whole++;
        }
        good &= taken(cut, length, row, &good) == whole;
        give_back(cut, length);
    }
    for (int i = 0; i < count; i++) {
        for (unsigned value = 0; value < 512; value++, ++*cases) {
            uint8_t *other = lent(bytes, starts[count]);
            uint8_t *at = other + starts[i] + value / 256, kept = *at;
            *at = (uint8_t)value;
            good &= taken(other, starts[count], row, &good) == (*at == kept ? count : i);
            give_back(other, starts[count]);
        }
        for (unsigned value = 0; value < 256; value++, ++*cases) {
            uint8_t *other = lent(bytes, starts[count]);
            other[starts[i] + 2] = (uint8_t)value;
            good &= taken(other, starts[count], row, &good) == count;
            give_back(other, starts[count]);
        }
        for (int k = 0; k < KINDS; k++) {
            uint8_t *other = lent(bytes, starts[count]);
            memcpy(other + starts[i], all[k].bytes, 2);
            if (k == 0 || k > 3) {
                good &= taken(other, starts[count], row, &good) == i;
            }
            give_back(other, starts[count]);
        }
    }
    verdict(good, "the records of an output");
}

static void outputs(void) {
    unsigned long cases = 0;
    for (int count = 0; count <= 3; count++) {
        int many = count == 0 ? 1 : count == 1 ? 3 : count == 2 ? 9 : 27;
        for (int n = 0; n < many; n++) {
            int row[3] = {1 + n % 3, 1 + n / 3 % 3, 1 + n / 9};
            output(row, count, &cases);
        }
    }
    printf("outputs: %lu\n", cases);
}

int main(int count, char **words) {
    answers();
    texts(count > 1 ? (unsigned)atoi(words[1]) : 0);
    fields();
    rooms();
    outputs();
    desk_words();
    printf("%u passed, %u failed\n", passed, failed);
    return failed == 0 ? 0 : 1;
}
