/* The files of vectors/ through the calls for C. Arguments: the files; the name of each says what its lines are handed
 * to, and its head what the columns mean. A line passes where the call answers its refusal and its bytes. The last
 * line is 'N passed, M failed'; the exit status is 0 only where M is 0. */
#define _POSIX_C_SOURCE 200809L
#include "room.h"

#include <stdio.h>
#include <stdlib.h>
#include <string.h>

#define MOST 256 /* bytes of an answer, and of an output that is long enough */

struct bytes {
    uint8_t *at; /* not NULL, even where the length is 0 */
    size_t length;
};

struct answer {
    unsigned refusal;
    size_t length;
    uint8_t bytes[MOST];
};

/* What carries on from line to line of a day. */
static uint32_t table[ROOM_TABLE_WORDS + 1], desk[ROOM_DESK_WORDS];
static int begins; /* the next line is the first of its day */

static void stop(const char *what) {
    fprintf(stderr, "vectors: %s\n", what);
    exit(1);
}

static int digit(char c) {
    const char *digits = "0123456789abcdef", *found = strchr(digits, c);
    if (found == NULL || c == 0) {
        stop("not a digit in lower case");
    }
    return (int)(found - digits);
}

/* Memory of just this length, so that a tool sees a read behind it. */
static struct bytes unhex(const char *hex) {
    size_t digits = strcmp(hex, "-") == 0 ? 0 : strlen(hex);
    struct bytes b = {malloc(digits / 2 + (digits == 0)), digits / 2};
    if (b.at == NULL || digits % 2 != 0) {
        stop("an odd number of digits");
    }
    for (size_t i = 0; i < b.length; i++) {
        b.at[i] = (uint8_t)(16 * digit(hex[2 * i]) + digit(hex[2 * i + 1]));
    }
    return b;
}

static void put(struct answer *a, uint64_t number, size_t bytes) {
    a->length = bytes;
    for (size_t i = 0; i < bytes; i++) {
        a->bytes[i] = (uint8_t)(number >> (8 * (bytes - 1 - i)));
    }
}

/* The number in the first column; one for an input without an office is above 15 too. */
static uint32_t number(const char *who) { return strcmp(who, "-") == 0 ? 16 : (uint32_t)strtoul(who, NULL, 10); }

/* Whether a refusal is one that only the reading of a record gives: 6 and 9 may come of a row too. */
static int is_of_reading(unsigned refusal) {
    return refusal == 1 || refusal == 4 || refusal == 5 || refusal == 20 || refusal == 7 || refusal == 8 ||
           refusal == 10 || refusal == 19;
}

/* What room_read refuses, room_step refuses by the same number, and no other record by a number of reading. */
static void step(struct answer *a, uint8_t office, size_t words, struct bytes in, size_t capacity) {
    uint8_t read = room_read(office, in.at, in.length);
    uint32_t answer = room_step(office, table, words, in.at, in.length, a->bytes, capacity);
    a->refusal = answer % 256;
    a->length = answer / 256;
    if (read != 0 ? a->refusal != read : is_of_reading(a->refusal)) {
        stop("room_step and room_read differ");
    }
}

static void office(struct answer *a, const char *who, struct bytes in) {
    if (begins) {
        a->refusal = room_fresh((uint8_t)number(who), table, ROOM_TABLE_WORDS);
    }
    if (a->refusal == 0) {
        step(a, (uint8_t)number(who), ROOM_TABLE_WORDS, in, MOST);
    }
}

static void a_desk(struct answer *a, const char *who, struct bytes in) {
    if (begins) {
        a->refusal = room_desk_fresh((uint8_t)number(who), desk, ROOM_DESK_WORDS);
    }
    if (a->refusal == 0) {
        a->refusal = room_desk_hear(desk, ROOM_DESK_WORDS, in.at, in.length);
        int roomless = a->refusal == ROOM_REFUSED_MARK || a->refusal == ROOM_REFUSED_LENGTH ||
                       a->refusal == ROOM_REFUSED_ROOM;
        a->length = room_desk_sync(desk, ROOM_DESK_WORDS, roomless ? 0 : in.at[2], a->bytes, ROOM_SYNC_BYTES);
    }
}

static void sheet(struct answer *a, const char *who, struct bytes view, struct bytes records) {
    uint64_t members = 0;
    uint32_t answer = room_came_along(records.at, records.length, view.at, view.length, number(who), &members);
    a->refusal = answer % 256;
    if (answer / 256 != 0) {
        put(a, answer / 256 - 1, 1);
    } else if (answer == 0) {
        put(a, members, 8);
    }
}

/* Both calls that read a file agree, but for the office; and every room begins at the number. */
static void file(struct answer *a, const char *who, struct bytes in) {
    uint64_t last = room_last_mark(in.at, in.length);
    a->refusal = room_restart((uint8_t)number(who), in.at, in.length, table, ROOM_TABLE_WORDS);
    if (a->refusal != 1 && a->refusal != last % 256) {
        stop("room_restart and room_last_mark differ");
    }
    for (uint8_t room = 0; a->refusal == 0 && room < ROOM_ROOMS; room++) {
        if (room_view_number(table, ROOM_TABLE_WORDS, room) != last / 256) {
            stop("room_restart begins a room at another number");
        }
    }
    if (a->refusal == 0) {
        put(a, last / 256, 4);
    }
}

static void leave(struct answer *a, const char *who, struct bytes in) {
    uint64_t answer = room_mark_before(number(who), in.at, in.length, a->bytes, ROOM_MARK_BYTES);
    a->refusal = answer % 256;
    if (a->refusal == 0 && answer / 65536 != number(who)) {
        a->length = ROOM_MARK_BYTES;
    }
    if (a->refusal == 0 && answer / 256 % 256 > in.length) {
        stop("room_mark_before finds a longer record");
    }
}

static void reading(struct answer *a, const char *who, struct bytes in) {
    a->refusal = room_read((uint8_t)number(who), in.at, in.length);
}

static void lent(struct answer *a, char *who, struct bytes in) {
    uint8_t served = 0;
    size_t words = ROOM_TABLE_WORDS, capacity = MOST;
    unsigned long place = 0;
    char *rest = NULL;
    memset(table, 0, sizeof table);
    if (room_fresh(0, table, ROOM_TABLE_WORDS) != 0) {
        stop("room_fresh makes no office 0");
    }
    for (char *part = strtok_r(who, ",", &rest); part != NULL; part = strtok_r(NULL, ",", &rest)) {
        if (strncmp(part, "office=", 7) == 0) {
            served = (uint8_t)number(part + 7);
        } else if (strncmp(part, "capacity=", 9) == 0) {
            capacity = strtoul(part + 9, NULL, 10);
        } else if (strncmp(part, "words=", 6) == 0) {
            words += (size_t)strtol(part + 6, NULL, 10);
        } else if (sscanf(part, "word%lu=", &place) == 1 && strchr(part, '=') != NULL && place < ROOM_TABLE_WORDS) {
            table[place] = number(strchr(part, '=') + 1);
        } else if (strcmp(part, "whole") != 0) {
            stop("nothing is lent by that name");
        }
    }
    if (words > sizeof table / sizeof *table || capacity > MOST) {
        stop("more is lent than there is");
    }
    step(a, served, words, in, capacity);
}

/* Hands a line to what the file is about. */
static void hand(struct answer *a, const char *name, char *who, char *in) {
    char *second = strchr(in, ':');
    if (second != NULL) {
        *second = 0;
    }
    struct bytes first = unhex(in), other = unhex(second != NULL ? second + 1 : "-");
    if (strcmp(name, "office.txt") == 0) {
        office(a, who, first);
    } else if (strcmp(name, "desk.txt") == 0) {
        a_desk(a, who, first);
    } else if (strcmp(name, "sheet.txt") == 0 && second != NULL) {
        sheet(a, who, first, other);
    } else if (strcmp(name, "file.txt") == 0) {
        file(a, who, first);
    } else if (strcmp(name, "leave.txt") == 0) {
        leave(a, who, first);
    } else if (strcmp(name, "read.txt") == 0) {
        reading(a, who, first);
    } else if (strcmp(name, "lent.txt") == 0) {
        lent(a, who, first);
    } else {
        stop("no call is known for this file");
    }
    free(first.at);
    free(other.at);
}

/* One line: whether it is answered as its last two columns say. */
static int right(const char *name, char *line) {
    char *rest = NULL, *column[5], got[2 * MOST + 1] = "-", refusal[12];
    for (int i = 0; i < 5; i++) {
        column[i] = strtok_r(i == 0 ? line : NULL, " ", &rest);
    }
    if (column[3] == NULL || column[4] != NULL) {
        return 0;
    }
    struct answer a = {0};
    hand(&a, name, column[0], column[1]);
    begins = 0;
    for (size_t i = 0; i < a.length; i++) {
        sprintf(got + 2 * i, "%02x", a.bytes[i]);
    }
    sprintf(refusal, "%u", a.refusal);
    return strcmp(refusal, column[2]) == 0 && strcmp(got, column[3]) == 0;
}

int main(int count, char **names) {
    unsigned passed = 0, failed = 0;
    for (int i = 1; i < count; i++) {
        const char *slash = strrchr(names[i], '/');
        FILE *lines = fopen(names[i], "r");
        char *line = NULL;
        size_t size = 0;
        if (lines == NULL) {
            stop("a file cannot be read");
        }
        begins = 1;
        for (unsigned at = 1; getline(&line, &size, lines) != -1; at++) {
            line[strcspn(line, "\n")] = 0;
            if (line[0] == '#') {
                begins |= strncmp(line, "# DAY ", 6) == 0 || strncmp(line, "# CASE ", 7) == 0;
            } else if (right(slash != NULL ? slash + 1 : names[i], line)) {
                passed++;
            } else {
                failed++;
                printf("FAILED: %s, line %u\n", names[i], at);
            }
        }
        free(line);
        fclose(lines);
    }
    printf("%u passed, %u failed\n", passed, failed);
    return failed != 0;
}
