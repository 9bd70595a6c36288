/* Real crashes: a child keeps a real file of high marks for the rooms that it serves, two of them or all eight, is
 * killed and begins again from its file, some thousands of times. What leaves goes into a pipe; the parent holds all
 * that left, over all rounds of a file, to change request 7, in each room and for the file that they share.
 * A child kills itself after a number of actions, an action being one byte put into the file or one record sent. Those
 * rounds are the same in every run, and what must come is counted in them. Or its parent kills it at a moment, which
 * is another in every run. Children that do one thing wrong must each be caught by the same checks.
 * Argument: the directory for the file, else TMPDIR, else the working directory. The last line is 'N passed, M
 * failed'. */
#define _POSIX_C_SOURCE 200809L
#include "room_words.h"

#include <errno.h>
#include <fcntl.h>
#include <limits.h>
#include <signal.h>
#include <stdbool.h>
#include <stdio.h>
#include <stdlib.h>
#include <string.h>
#include <sys/wait.h>
#include <time.h>
#include <unistd.h>

#define L ((uint32_t)ROOM_LIMIT)
#define MARGIN ((uint32_t)ROOM_MARK_MARGIN)
#define SEATS ROOM_OFFICE_SEATS
#define FULL_FILE 2000    /* marks, each little more than 1,000,000 above the one before it, and the last is L */
#define LONGEST_WAIT 3000 /* microseconds until a parent kills */
#define PAIRS 40          /* more than the 33 actions of an answer with three marks */
#define IDLE 64           /* so many events in a row that nothing left after: nothing will */

/* What a child does wrong. */
enum wrong {
    NOTHING, RECORD_FIRST, NINE_BYTES, ONCE, OWN_NUMBERS, OLD_MARK, APPENDS, FRESH, OWN_USED, ROOM_0_ONLY, MARK_EACH
};

/* What every round is held to. */
enum check {
    ENDS, WHOLE, OF_ROOM, RESTARTS, BEGINS, BELOW, MARKS, PROPOSALS, SELF_USES, NOTICES, VIEWS, HEARD, SYNCS, CEILING,
    CHECKS
};

static const char *const check_names[CHECKS] = {
    "a child ends by SIGKILL and nothing else",
    "what left is whole records",
    "what left is of the rooms that the child serves",
    "the file has at most ROOM_FILE_BYTES and room_restart takes it",
    "room_last_mark answers what the file is worth, read by hand, and all eight rooms begin there",
    "every number that left is at most the last mark",
    "the marks are those that the records of all rooms which left ask for, and at most one more",
    "proposal numbers of a room rise over all rounds of a file",
    "no proposal claims to have used itself, and none gets 19",
    "start numbers of a room's notices rise over all rounds of a file",
    "view numbers of a room rise over all rounds of a file",
    "the desks of the office accept every notice and view",
    "a desk's sync record has in every room the last numbers that it accepted there",
    "from the mark L nothing leaves and 13 is answered",
};

/* Where a child was cut. */
enum cut { BEFORE_ALL, IN_MARK, BEFORE_RECORD, BETWEEN, AFTER_ANSWER, IDLED, CUTS };

static const char *const cut_names[CUTS] = {
    "before anything", "inside a mark", "between a mark and its record", "between two records of one answer",
    "after an answer", "where nothing leaves any more",
};

struct plan {
    const char *name;
    uint32_t reach;    /* how far above the last mark the numbers of other offices are drawn */
    unsigned actions;  /* a child kills itself after fewer than so many; 0 where its parent kills it */
    unsigned rounds;   /* the plan ends after so many */
    unsigned pairs;    /* if not 0, a file has three rounds: any two cuts after fewer actions than this, then one */
    enum wrong wrong;
    enum check finder; /* the check that must find what is wrong */
};

/* The last thing that a child which kills itself puts into the pipe. */
struct note {
    char mark[2];        /* CU */
    uint8_t cut;         /* the place */
    uint8_t nth;         /* the marks begun in the answer at hand */
    uint8_t mixed;       /* behind the bytes of the unfinished mark stand some of an older one */
    uint16_t foreign;    /* marks that no own number called for */
    uint16_t covered;    /* records without a mark, since another room's mark is high enough */
    uint16_t answers[4]; /* whole answers with so many marks, */
    uint16_t twice;      /* with a notice and two proposals, */
    uint16_t viewed;     /* with a notice, a proposal and a view */
    uint16_t refused;    /* events answered by 13, */
    uint16_t self_uses;  /* and by 19, though the used number for the sender is below the proposal's own */
};

static char directory[PATH_MAX], path[PATH_MAX + 8];
static uint64_t drawn;

static uint64_t draw(void) {
    uint64_t z = drawn += 0x9E3779B97F4A7C15u;
    z = (z ^ z >> 30) * 0xBF58476D1CE4E5B9u;
    z = (z ^ z >> 27) * 0x94D049BB133111EBu;
    return z ^ z >> 31;
}

static uint32_t below(uint32_t bound) { return (uint32_t)(draw() % bound); }

static uint64_t seats_of(unsigned office) { return (uint64_t)15 << (SEATS * office); }

/* Who is played for a file: an office, and the rooms in which something happens. */
struct server {
    uint8_t office;
    uint8_t rooms[ROOM_ROOMS];
    unsigned served; /* so many of them, from the front */
};

/* What the child knows of one of its rooms. */
struct room {
    uint8_t itself;
    uint64_t net;           /* the net view, by the reports that were accepted */
    uint32_t start, number; /* the last start number and proposal number that it was told to send */
    uint32_t accepted[ROOM_OFFICES];
    uint32_t called;        /* the last mark that this room called for, or that the file began with */
};

/* The child: an office with its file, from its begin to the cut. */
struct child {
    const struct plan *plan;
    struct server server;
    uint32_t table[ROOM_TABLE_WORDS];
    struct room rooms[ROOM_ROOMS];
    int file, pipe;
    uint32_t last;    /* the last mark */
    size_t place;     /* where the next one belongs */
    size_t tail;      /* the bytes of an unfinished one there */
    unsigned actions; /* that are still allowed */
    unsigned idle;    /* events since the last action */
    struct note note;
};

/* What cannot happen: the parent sees a child that did not end by SIGKILL. */
static void give_up(void) { _exit(3); }

static void cut(struct child *c, enum cut place) {
    c->note.cut = (uint8_t)place;
    if (write(c->pipe, &c->note, sizeof c->note) != sizeof c->note) {
        give_up();
    }
    kill(getpid(), SIGKILL);
}

/* One more action is done. */
static void acted(struct child *c, enum cut place) {
    c->idle = 0;
    if (c->actions-- == 0) {
        cut(c, place);
    }
}

/* Bytes of a mark into the file, one by one. No fdatasync: the end of a process loses nothing that pwrite has given to
 * the kernel, and many thousand waits for a disk would take minutes. */
static void keep(struct child *c, const uint8_t *mark, size_t from, size_t to) {
    for (size_t i = from; i < to; i++) {
        if (pwrite(c->file, mark + i, 1, (off_t)(c->place + i)) != 1) {
            give_up();
        }
        c->note.mixed = i + 1 < c->tail;
        acted(c, i + 1 < ROOM_MARK_BYTES ? IN_MARK : BEFORE_RECORD);
    }
    if (to == ROOM_MARK_BYTES) {
        c->place += ROOM_MARK_BYTES;
        c->tail = 0;
    }
}

/* The largest number that is the office's own. */
static uint32_t own_number(const uint8_t *record) {
    struct room_proposal p;
    if (!room_proposal_read(record, ROOM_PROPOSAL_BYTES, &p)) {
        return room_get_number(record + 3);
    }
    return p.start > p.number ? p.start : p.number;
}

/* A record leaves by one write, under PIPE_BUF and so whole; before it, its mark. */
static void leave(struct child *c, const uint8_t *record, size_t size, const uint8_t *mark, bool more) {
    size_t before = c->plan->wrong == RECORD_FIRST ? 0 : c->plan->wrong == NINE_BYTES ? 9 : ROOM_MARK_BYTES;
    uint8_t sent[ROOM_PROPOSAL_BYTES];
    memcpy(sent, record, size);
    if (c->plan->wrong == OWN_USED && size == ROOM_PROPOSAL_BYTES) {
        memcpy(sent + 21 + 4 * c->server.office, sent + 17, 4);
    }
    if (mark != NULL) {
        c->note.nth++;
        keep(c, mark, 0, before);
    }
    if (write(c->pipe, sent, size) != (ssize_t)size) {
        give_up();
    }
    acted(c, more ? BETWEEN : AFTER_ANSWER);
    if (mark != NULL && before < ROOM_MARK_BYTES) {
        keep(c, mark, before, ROOM_MARK_BYTES);
    }
}

/* What the step wrote, record by record, as the header says. */
static void send_answer(struct child *c, struct room *r, const uint8_t *out, size_t written) {
    struct room_sent s = room_sent_in(out, written);
    struct room_proposal p;
    struct room_notice n;
    c->note.nth = 0;
    while (room_next(&s)) {
        uint8_t mark[ROOM_MARK_BYTES];
        uint32_t last = c->plan->wrong == MARK_EACH ? r->called : c->last;
        uint64_t before = room_mark_before(last, s.bytes, s.length + s.left, mark, sizeof mark);
        uint32_t next = room_before_mark(before);
        if (room_refused(before) || room_before_length(before) != s.length) {
            give_up();
        }
        bool due = next != last, foreign = due && own_number(s.bytes) <= last;
        if ((c->plan->wrong == OWN_NUMBERS && foreign) || (c->plan->wrong == ONCE && s.bytes != out)) {
            due = false;
        }
        c->note.foreign += foreign;
        c->note.covered += !due && own_number(s.bytes) > r->called;
        r->start = room_notice_read(s.bytes, s.length, &n) ? n.start : r->start;
        r->number = room_proposal_read(s.bytes, s.length, &p) ? p.number : r->number;
        leave(c, s.bytes, s.length, due ? mark : NULL, s.left > 0);
        if (due && c->plan->wrong != OLD_MARK) {
            c->last = r->called = next;
        }
    }
    if (s.left > 0) {
        give_up();
    }
    c->note.answers[c->note.nth]++;
    c->note.twice += written == ROOM_NOTICE_BYTES + 2 * ROOM_PROPOSAL_BYTES;
    c->note.viewed += written == ROOM_NOTICE_BYTES + ROOM_PROPOSAL_BYTES + ROOM_VIEW_BYTES;
}

static unsigned hand(struct child *c, struct room *r, const uint8_t *record, size_t length) {
    uint8_t out[ROOM_OUTPUT_BYTES];
    uint32_t answer = room_step(c->server.office, c->table, ROOM_TABLE_WORDS, record, length, out, sizeof out);
    c->note.refused += room_refused(answer) == ROOM_REFUSED_CEILING;
    c->note.self_uses += room_refused(answer) == ROOM_REFUSED_SELF_USE;
    if (room_value(answer) > 0) {
        send_answer(c, r, out, room_value(answer));
    }
    return room_refused(answer);
}

/* Seats of this office, seldom none, and either those of others as they are or of up to two others. */
static uint64_t some_members(const struct child *c, const struct room *r) {
    uint64_t own = seats_of(c->server.office), members = own & draw();
    if (below(2) == 0) {
        return members | (r->net & ~own);
    }
    for (uint32_t others = below(3); others > 0; others--) {
        members |= seats_of((c->server.office + 1 + below(3)) % ROOM_OFFICES) & draw();
    }
    return members;
}

/* A report that makes the net view these members. */
static void hand_report(struct child *c, struct room *r, uint64_t members) {
    uint8_t report[ROOM_REPORT_BYTES];
    if (!hand(c, r, report, room_report_write(r->itself, members, r->net & ~members, report, sizeof report))) {
        r->net = members;
    }
}

/* A number that another office may have reached: at the last mark, near the own number, or ahead. */
static uint32_t some_number(const struct child *c, const struct room *r) {
    uint64_t number = (uint64_t)c->last + below(c->plan->reach + 1);
    switch (below(4)) {
    case 0: number = (uint64_t)c->last + (c->plan->reach > 0) - below(3); break;
    case 1: number = (uint64_t)r->number + below(3); break;
    }
    return number == 0 || number > UINT64_MAX - 3 ? 1 : number > L ? L : (uint32_t)number;
}

/* Now and then it uses the own number, so that proposals cross. */
static void hand_proposal(struct child *c, struct room *r, unsigned sender, uint8_t kind, uint64_t members,
                          uint32_t start, uint32_t number) {
    uint8_t record[ROOM_PROPOSAL_BYTES];
    struct room_proposal p = {
        .room = r->itself, .sender = (uint8_t)sender, .kind = kind, .members = members, .start = start};
    p.number = number > r->accepted[sender] ? number : r->accepted[sender] + 1;
    p.used[c->server.office] = below(4) == 0 ? r->number : 0;
    p.used[sender] = below(2) == 0 ? p.number - 1 : 0;
    if (!hand(c, r, record, room_proposal_write(&p, record, sizeof record))) {
        r->accepted[sender] = p.number;
    }
}

/* Each other office of the members, seldom one less, proposes them. Slow ones all have one number, as slow agreement
 * asks. */
static void hand_proposals(struct child *c, struct room *r, uint64_t members) {
    uint8_t kind = below(3) == 0 ? 2 : 1;
    uint32_t together = some_number(c, r);
    for (unsigned o = 0; o < ROOM_OFFICES; o++) {
        if (o != c->server.office && (seats_of(o) & members) != 0 && below(8) > 0) {
            hand_proposal(c, r, o, kind, members, some_number(c, r), kind == 2 ? together : some_number(c, r));
        }
    }
}

/* Seats of this office and the next, other than the net view. */
static uint64_t two_offices(const struct child *c, const struct room *r) {
    uint64_t own = seats_of(c->server.office), first = own & -own;
    uint64_t next = seats_of((c->server.office + 1) % ROOM_OFFICES);
    return ((r->net ^ first) & own) | first << 1 | (next & 0x1111111111111111);
}

/* A proposal that is there before the report, and so far ahead that the first answer after a restart has a notice, a
 * proposal and a view with a mark for each. */
static void leap(struct child *c, struct room *r) {
    uint64_t members = two_offices(c, r);
    uint32_t start = c->last + 3 * MARGIN, number = c->last + MARGIN / 2 * 3;
    hand_proposal(c, r, (c->server.office + 1) % ROOM_OFFICES, 1, members, start, number);
    hand_report(c, r, members);
}

/* A view uses a proposal whose number alone is above the last mark; the next own proposal has it as a used number. */
static void use(struct child *c, struct room *r) {
    uint64_t members = two_offices(c, r);
    hand_report(c, r, members);
    hand_proposal(c, r, (c->server.office + 1) % ROOM_OFFICES, 1, members, r->start + 1, c->last + MARGIN / 2);
    hand_report(c, r, two_offices(c, r));
}

/* In one of the rooms: one of the two above, proposals that are there before the report, proposals after it, or a
 * report alone. */
static void event(struct child *c) {
    struct room *r = &c->rooms[c->server.rooms[below(c->server.served)]];
    uint32_t kind = below(8);
    if (kind == 0 && c->plan->reach > 0) {
        leap(c, r);
    } else if (kind == 1 && c->plan->reach > 0) {
        use(c, r);
    } else if (kind < 4) {
        uint64_t members = some_members(c, r);
        hand_proposals(c, r, members);
        hand_report(c, r, members);
    } else if (kind < 6) {
        hand_proposals(c, r, r->net);
    } else {
        hand_report(c, r, some_members(c, r));
    }
}

/* The table with which the office begins: the refusal. Of the rows it is known that that of room 0 comes first. */
static uint8_t make_table(struct child *c, const uint8_t *bytes, size_t length) {
    uint32_t fresh[ROOM_TABLE_WORDS];
    uint8_t made = room_fresh(c->server.office, fresh, ROOM_TABLE_WORDS);
    uint8_t refusal = room_restart(c->server.office, bytes, length, c->table, ROOM_TABLE_WORDS);
    size_t kept = c->plan->wrong == FRESH ? 0 : c->plan->wrong == ROOM_0_ONLY ? ROOM_STATE_WORDS : ROOM_TABLE_WORDS;
    memcpy(c->table + kept, fresh + kept, (ROOM_TABLE_WORDS - kept) * sizeof *fresh);
    return made != 0 ? made : refusal;
}

/* The office begins, for the first time or again: the file is all that it has. */
static void begin(struct child *c) {
    uint8_t bytes[ROOM_FILE_BYTES + 1];
    c->file = open(path, O_RDWR);
    ssize_t got = c->file < 0 ? -1 : read(c->file, bytes, sizeof bytes);
    if (got < 0 || make_table(c, bytes, (size_t)got) != 0) {
        give_up();
    }
    size_t length = (size_t)got;
    c->last = (uint32_t)room_value(room_last_mark(bytes, length));
    for (uint8_t room = 0; room < ROOM_ROOMS; room++) {
        uint32_t number = room_view_number(c->table, ROOM_TABLE_WORDS, room);
        c->rooms[room] = (struct room){.itself = room, .start = number, .number = number, .called = c->last};
    }
    c->place = length / ROOM_MARK_BYTES * ROOM_MARK_BYTES;
    c->tail = length - c->place;
    if (c->plan->wrong == APPENDS) {
        c->place = length;
    }
}

static _Noreturn void live(const struct plan *plan, const struct server *server, unsigned round, int pipe,
                           unsigned actions, uint64_t seed) {
    static struct child c;
    alarm(60); /* no child outlives a parent that was stopped */
    c = (struct child){.plan = plan, .server = *server, .pipe = pipe, .actions = actions, .note = {.mark = "CU"}};
    drawn = seed;
    begin(&c);
    acted(&c, BEFORE_ALL);
    if (plan->pairs > 0) {
        leap(&c, &c.rooms[server->rooms[round % server->served]]);
    }
    while (c.idle++ < IDLE) {
        event(&c);
    }
    if (plan->actions > 0) {
        cut(&c, IDLED);
    }
    while (true) {
        pause();
    }
}

/* The last numbers that a desk accepted in a room. */
struct heard { uint32_t start, view; };

/* What left of one room: the highest number in a proposal, in a notice and in a view. */
struct left {
    uint32_t proposal, start, view;
    uint32_t called;  /* the last mark that a record of this room called for */
    bool before, now; /* records of it left in an earlier round of the file, and in this one */
};

/* The parent: a plan being played, with the file at hand from empty to its end. */
struct run {
    const struct plan *plan;
    unsigned long *faults; /* of each check */
    unsigned file, round;  /* each from 1 */
    struct server server;
    uint32_t desks[SEATS][ROOM_DESK_WORDS];
    struct heard heard[SEATS][ROOM_ROOMS];
    struct left left[ROOM_ROOMS];
    int held;         /* the file */
    uint8_t bytes[ROOM_FILE_BYTES + 1];
    size_t length;
    uint32_t last;    /* its last whole mark */
    uint32_t reached; /* the mark before the next record that is judged, */
    size_t next;      /* and the place of the one behind it */
    struct note note; /* of the last round, if its child had time for one */
    bool over;
    /* over all files of the plan */
    unsigned rounds, ended;
    unsigned long torn, marks, records;
};

/* What came in rounds whose child kills itself and does nothing wrong: files at a restart, cuts, answers, files. */
static struct {
    unsigned long torn[ROOM_MARK_BYTES], empty, thousand;
    unsigned long cuts[CUTS], nth[4], mixed;
    unsigned long answers[4], twice, viewed, foreign, covered;
    unsigned long rooms[ROOM_ROOMS], both, higher;
    unsigned long proposals, just_below;
    unsigned long ended, full;
} seen;

static unsigned passed, failed;

static void remove_file(void) {
    unlink(path);
    rmdir(directory);
}

static void stopped(int signal) {
    (void)signal;
    remove_file();
    _exit(1);
}

static void stop(const char *what) {
    perror(what);
    remove_file();
    exit(1);
}

static void verdict(bool good, const char *name) {
    passed += good;
    failed += !good;
    if (!good) {
        printf("FAILED: %s\n", name);
    }
}

static void fault(struct run *run, enum check check, uint32_t got, uint32_t held) {
    static unsigned said;
    run->faults[check]++;
    if (run->plan->wrong == NOTHING && said++ < 10) {
        printf("%s, file %u, round %u: not so: %s; %u against %u\n", run->plan->name, run->file, run->round,
               check_names[check], (unsigned)got, (unsigned)held);
    }
}

/* The last whole mark, read without the calls; above L where a whole record is no mark. */
static uint32_t last_by_hand(const uint8_t *bytes, size_t length) {
    uint32_t last = 0;
    for (size_t at = 0; at + ROOM_MARK_BYTES <= length; at += ROOM_MARK_BYTES) {
        uint32_t number = room_get_number(bytes + at + 2);
        bool higher = number > (at == 0 ? 0 : last + MARGIN) || (number == L && last < L);
        if (memcmp(bytes + at, "HM", 2) != 0 || number != room_get_number(bytes + at + 6) || number > L || !higher) {
            return L + 1;
        }
        last = number;
    }
    return last;
}

/* A room of a table at a mark: its view number is the mark, and its first proposal has the next number, the next start
 * number and nothing used. */
static bool room_begins_at(uint32_t *table, uint8_t room, uint8_t office, uint32_t mark) {
    uint8_t report[ROOM_REPORT_BYTES], out[ROOM_OUTPUT_BYTES], expected[ROOM_NOTICE_BYTES + ROOM_PROPOSAL_BYTES];
    uint64_t members = seats_of(office) | seats_of((office + 1u) % ROOM_OFFICES);
    struct room_notice n = {.room = room, .start = mark + 1, .members = members};
    struct room_proposal p = {.room = room, .sender = office, .kind = ROOM_FAST, .members = members};
    p.start = p.number = mark + 1;
    size_t reported = room_report_write(room, members, 0, report, sizeof report);
    size_t length = room_notice_write(&n, expected, sizeof expected);
    length += room_proposal_write(&p, expected + length, sizeof expected - length);
    bool numbered = room_view_number(table, ROOM_TABLE_WORDS, room) == mark;
    uint32_t answer = room_step(office, table, ROOM_TABLE_WORDS, report, reported, out, sizeof out);
    return numbered && (mark == L ? answer == ROOM_REFUSED_CEILING
                                  : answer == 256 * length && memcmp(out, expected, length) == 0);
}

/* All rooms, one after the other, on one table. Words that are to be fresh are those of room_fresh. */
static bool begins_at(uint32_t *table, uint8_t office, uint32_t mark) {
    uint32_t fresh[ROOM_TABLE_WORDS];
    if (mark == 0 && (room_fresh(office, fresh, ROOM_TABLE_WORDS) || memcmp(table, fresh, sizeof fresh) != 0)) {
        return false;
    }
    bool all = true;
    for (uint8_t room = 0; room < ROOM_ROOMS; room++) {
        all &= room_begins_at(table, room, office, mark);
    }
    return all;
}

/* The file as a round left it. Of a wrong child too the calls must answer what the file is worth. */
static void judge_file(struct run *run) {
    uint32_t made[ROOM_TABLE_WORDS];
    ssize_t got = pread(run->held, run->bytes, sizeof run->bytes, 0);
    run->length = got < 0 ? 0 : (size_t)got;
    run->last = last_by_hand(run->bytes, run->length);
    bool sound = got >= 0 && run->length <= ROOM_FILE_BYTES && run->last <= L;
    memset(made, 0xAA, sizeof made);
    uint64_t mark = room_last_mark(run->bytes, run->length);
    uint8_t refusal = room_restart(run->server.office, run->bytes, run->length, made, ROOM_TABLE_WORDS);
    if (!sound || refusal != 0) {
        fault(run, RESTARTS, refusal, (uint32_t)run->length);
    }
    if (refusal != (sound ? 0 : ROOM_REFUSED_FILE) || mark != (sound ? 256ull * run->last : ROOM_REFUSED_FILE) ||
        !begins_at(made, sound ? run->server.office : 0, sound ? run->last : 0)) {
        fault(run, BEGINS, (uint32_t)room_value(mark), run->last);
    }
}

static void rises(struct run *run, enum check check, uint32_t *highest, uint32_t number) {
    if (number <= *highest) {
        fault(run, check, number, *highest);
    }
    *highest = number > *highest ? number : *highest;
}

static void judge_syncs(struct run *run, unsigned s) {
    for (uint8_t room = 0; room < ROOM_ROOMS; room++) {
        struct room_sync sync = {0};
        uint8_t bytes[ROOM_SYNC_BYTES];
        size_t made = room_desk_sync(run->desks[s], ROOM_DESK_WORDS, room, bytes, sizeof bytes);
        const struct heard *heard = &run->heard[s][room];
        if (!room_sync_read(bytes, made, &sync) || sync.seat != SEATS * run->server.office + s ||
            sync.start != heard->start || sync.previous != heard->view) {
            fault(run, SYNCS, sync.start, heard->start);
        }
    }
}

/* The desks of the seats that are among the members hear the notice or view. They never begin again, and one desk
 * hears all rooms. */
static void hear(struct run *run, const uint8_t *record, size_t size) {
    for (unsigned s = 0; s < SEATS; s++) {
        if (room_has(room_get_set(record + 7), SEATS * run->server.office + s)) {
            uint8_t refusal = room_desk_hear(run->desks[s], ROOM_DESK_WORDS, record, size);
            struct heard *heard = &run->heard[s][record[2]];
            *(size == ROOM_VIEW_BYTES ? &heard->view : &heard->start) = room_get_number(record + 3);
            if (refusal != 0) {
                fault(run, HEARD, refusal, 0);
            }
            judge_syncs(run, s);
        }
    }
}

/* Before a record with a number above the last mark there is one more, of its largest number plus the margin, or L. */
static void judge_mark(struct run *run, uint32_t largest, uint8_t room) {
    if (largest > run->reached) {
        run->reached = largest > L - MARGIN ? L : largest + MARGIN;
        run->left[room % ROOM_ROOMS].called = run->reached;
        if (run->next + ROOM_MARK_BYTES > run->length || room_get_number(run->bytes + run->next + 2) != run->reached) {
            fault(run, MARKS, largest, run->reached);
        }
        run->next += ROOM_MARK_BYTES;
    }
}

/* Rounds that are the same in every run, of children that do nothing wrong. */
static bool is_counted(const struct plan *plan) { return plan->wrong == NOTHING && plan->actions > 0; }

/* The proposal is read for an office of the members, another than the sender, which tells 19 without a table; and that
 * office, fresh, is handed it. */
static void judge_self_use(struct run *run, const uint8_t *proposal, uint32_t number) {
    uint32_t table[ROOM_TABLE_WORDS], used = room_get_number(proposal + 21 + 4 * run->server.office);
    uint8_t out[ROOM_OUTPUT_BYTES], other = 0;
    while (other < 15 && (other == run->server.office || (room_get_set(proposal + 5) & seats_of(other)) == 0)) {
        other++;
    }
    uint8_t made = room_fresh(other, table, ROOM_TABLE_WORDS);
    uint8_t read = room_read(other, proposal, ROOM_PROPOSAL_BYTES);
    unsigned refusal =
        room_refused(room_step(other, table, ROOM_TABLE_WORDS, proposal, ROOM_PROPOSAL_BYTES, out, sizeof out));
    if (used >= number || made != 0 || read != 0 || (refusal != 0 && refusal != ROOM_REFUSED_UNREACHED)) {
        fault(run, SELF_USES, used, number);
    }
    seen.proposals += is_counted(run->plan);
    seen.just_below += is_counted(run->plan) && used + 1 == number;
}

static bool serves(const struct server *server, uint8_t room) {
    for (unsigned i = 0; i < server->served; i++) {
        if (server->rooms[i] == room) {
            return true;
        }
    }
    return false;
}

/* A record of a room that the child serves, with the number that is to rise in this room. */
static void judge_number(struct run *run, const uint8_t *record, size_t size, uint32_t own) {
    struct left *left = &run->left[record[2]];
    if (size == ROOM_PROPOSAL_BYTES) {
        rises(run, PROPOSALS, &left->proposal, own);
        judge_self_use(run, record, own);
    } else {
        bool view = size == ROOM_VIEW_BYTES;
        rises(run, view ? VIEWS : NOTICES, view ? &left->view : &left->start, own);
        hear(run, record, size);
    }
    seen.rooms[record[2]] += is_counted(run->plan);
    left->now = true;
}

static void judge_record(struct run *run, const uint8_t *record, size_t size) {
    bool proposal = memcmp(record, "PR", 2) == 0;
    uint32_t own = room_get_number(record + (proposal ? 17 : 3)), largest = own;
    for (size_t at = proposal ? 13 : 15; at < size; at += 4) {
        uint32_t number = room_get_number(record + at);
        largest = number > largest ? number : largest;
    }
    if (largest > run->last) {
        fault(run, BELOW, largest, run->last);
    }
    judge_mark(run, largest, record[2]);
    run->records++;
    if (serves(&run->server, record[2])) {
        judge_number(run, record, size, own);
    } else {
        fault(run, OF_ROOM, record[2], run->server.rooms[0]);
    }
}

static void count_note(const struct note *note) {
    seen.cuts[note->cut]++;
    seen.mixed += note->cut == IN_MARK && note->mixed;
    seen.twice += note->twice;
    seen.viewed += note->viewed;
    seen.foreign += note->foreign;
    seen.covered += note->covered;
    for (unsigned i = 0; i < 4; i++) {
        seen.answers[i] += note->answers[i];
        seen.nth[i] += note->cut == IN_MARK && note->nth == i;
    }
}

/* A round is over: the rooms of which records left in it and before it. */
static void judge_rooms(struct run *run) {
    unsigned again = 0;
    for (unsigned room = 0; room < ROOM_ROOMS; room++) {
        struct left *left = &run->left[room];
        again += left->before && left->now;
        left->before |= left->now;
        left->now = false;
    }
    seen.both += is_counted(run->plan) && again > 1;
}

/* All that left in a round, and behind it the note of a child that killed itself. */
static void judge_pipe(struct run *run, const uint8_t *bytes, size_t length, bool at_limit) {
    struct room_sent s = room_sent_in(bytes, length);
    run->note = (struct note){.cut = CUTS};
    while (room_next(&s)) {
        judge_record(run, s.bytes, s.length);
        if (at_limit) {
            fault(run, CEILING, (uint32_t)s.length, 0);
        }
    }
    if (s.left == sizeof run->note && memcmp(s.rest, "CU", 2) == 0) {
        memcpy(&run->note, s.rest, sizeof run->note);
        if (run->note.self_uses > 0) {
            fault(run, SELF_USES, run->note.self_uses, 0);
        }
        if (at_limit && run->note.cut == IDLED && run->note.refused == 0) {
            fault(run, CEILING, 0, 0);
        }
    } else if (s.left > 0) {
        fault(run, WHOLE, (uint32_t)(length - s.left), (uint32_t)length);
        return;
    }
    if (run->next + 2 * ROOM_MARK_BYTES <= run->length) {
        fault(run, MARKS, (uint32_t)run->next, (uint32_t)run->length);
    }
}

/* Reads the pipe to its end, which comes when the child has gone. */
static size_t read_pipe(int from, uint8_t *bytes, size_t capacity) {
    size_t length = 0;
    ssize_t got;
    while (length < capacity && (got = read(from, bytes + length, capacity - length)) > 0) {
        length += (size_t)got;
    }
    return length;
}

/* After how many actions the child of this round kills itself. */
static unsigned allowed(const struct run *run) {
    const struct plan *plan = run->plan;
    if (plan->pairs == 0) {
        return plan->actions > 0 ? below(plan->actions) : UINT_MAX;
    }
    unsigned first = (run->file - 1) / plan->pairs, second = (run->file - 1) % plan->pairs;
    return run->round == 1 ? first : run->round == 2 ? second : plan->actions;
}

static void play_round(struct run *run) {
    static uint8_t left[1 << 19];
    const struct plan *plan = run->plan;
    bool at_limit = run->last == L;
    unsigned actions = allowed(run);
    uint64_t seed = plan->pairs > 0 ? run->round : draw();
    struct timespec wait = {.tv_nsec = 1000L * below(LONGEST_WAIT + 1)};
    int ends[2], status = 0;
    pid_t child = pipe(ends) == 0 ? fork() : -1;
    if (child < 0) {
        stop("no child can be made");
    }
    if (child == 0) {
        close(ends[0]);
        live(plan, &run->server, run->round, ends[1], actions, seed);
    }
    close(ends[1]);
    if (plan->actions == 0) {
        nanosleep(&wait, NULL);
        kill(child, SIGKILL);
    }
    size_t length = read_pipe(ends[0], left, sizeof left);
    close(ends[0]);
    waitpid(child, &status, 0);
    if (!WIFSIGNALED(status) || WTERMSIG(status) != SIGKILL) {
        fault(run, ENDS, (uint32_t)status, SIGKILL);
    }
    run->reached = run->last;
    run->next = run->length / ROOM_MARK_BYTES * ROOM_MARK_BYTES;
    judge_file(run);
    judge_pipe(run, left, length, at_limit);
    judge_rooms(run);
    run->over = plan->pairs > 0 ? run->round == 3 : at_limit && (plan->actions == 0 || run->note.cut == IDLED);
}

/* Any office; any two rooms, or in one file of four all eight, in any order. */
static struct server some_server(void) {
    struct server server = {.office = (uint8_t)below(ROOM_OFFICES), .served = below(4) == 0 ? ROOM_ROOMS : 2};
    for (unsigned i = 0; i < ROOM_ROOMS; i++) {
        unsigned at = below(i + 1);
        server.rooms[i] = server.rooms[at];
        server.rooms[at] = (uint8_t)i;
    }
    return server;
}

static void begin_file(struct run *run) {
    run->file++;
    run->round = 0;
    run->server = some_server();
    for (uint8_t s = 0; s < SEATS; s++) {
        if (room_desk_fresh((uint8_t)(SEATS * run->server.office + s), run->desks[s], ROOM_DESK_WORDS)) {
            stop("no desk");
        }
    }
    memset(run->heard, 0, sizeof run->heard);
    memset(run->left, 0, sizeof run->left);
    run->last = 0;
    run->length = 0;
    run->over = false;
    run->held = open(path, O_RDWR | O_CREAT | O_TRUNC, 0600);
    if (run->held < 0) {
        stop(path);
    }
}

/* What a plan ends with: any fault of a right child, and of a wrong one the fault that it must be found by. */
static bool found(const struct run *run) {
    for (enum check k = 0; k < CHECKS; k++) {
        if (run->faults[k] > 0 && (run->plan->wrong == NOTHING || k == run->plan->finder)) {
            return true;
        }
    }
    return false;
}

/* The file that the next child finds. */
static void count_restart(const struct run *run) {
    seen.torn[run->length % ROOM_MARK_BYTES]++;
    seen.empty += run->length < ROOM_MARK_BYTES;
    seen.thousand += run->length / ROOM_MARK_BYTES >= 1000;
    for (unsigned room = 0; room < ROOM_ROOMS; room++) {
        seen.higher += run->left[room].before && run->left[room].called < run->last;
    }
}

/* The rounds of a file until it is over. */
static void play_file(struct run *run) {
    const struct plan *plan = run->plan;
    bool counted = is_counted(plan);
    begin_file(run);
    while (run->rounds < plan->rounds && !run->over && !found(run)) {
        run->torn += run->length % ROOM_MARK_BYTES > 0;
        if (counted && run->round > 0) {
            count_restart(run);
        }
        run->round++;
        run->rounds++;
        play_round(run);
        if (counted && run->note.cut < CUTS) {
            count_note(&run->note);
        }
    }
    close(run->held);
    run->marks += run->length / ROOM_MARK_BYTES;
    run->ended += run->over && run->last == L;
    seen.ended += counted && run->over && run->last == L;
    seen.full += counted && run->over && run->length == FULL_FILE * ROOM_MARK_BYTES;
}

/* The rounds of a plan, on one file after the other. */
static void play(struct run *run, const struct plan *plan, unsigned long *faults, uint64_t seed) {
    *run = (struct run){.plan = plan, .faults = faults};
    drawn = seed;
    while (run->rounds < plan->rounds && !found(run)) {
        play_file(run);
    }
}

/* The plans of children that do nothing wrong. */
static const struct plan right[] = {
    {"each two cuts of answers with three marks", 3000000, 60, 3 * PAIRS * PAIRS, PAIRS, NOTHING, CHECKS},
    {"numbers up to 3,000,000 ahead", 3000000, 60, 3000, 0, NOTHING, CHECKS},
    {"numbers up to 200,000,000 ahead", 200000000, 60, 1500, 0, NOTHING, CHECKS},
    {"numbers near the last mark", 0, 120, 800, 0, NOTHING, CHECKS},
    {"killed by the parent, numbers up to 3,000,000 ahead", 3000000, 0, 1500, 0, NOTHING, CHECKS},
};

/* And of children that do one thing wrong. */
static const struct plan wrong[] = {
    {"a child that sends a record before its mark", 3000000, 60, 1000, 0, RECORD_FIRST, BELOW},
    {"a child that sends a record before the last byte of its mark", 3000000, 60, 1000, 0, NINE_BYTES, BELOW},
    {"a child that asks for a mark once in an answer", 3000000, 60, 1000, 0, ONCE, BELOW},
    {"a child that asks for a mark by its own numbers only", 3000000, 60, 1000, 0, OWN_NUMBERS, BELOW},
    {"a child that forgets the mark it has put", 3000000, 60, 1000, 0, OLD_MARK, RESTARTS},
    {"a child that puts a mark behind an unfinished one", 3000000, 60, 1000, 0, APPENDS, RESTARTS},
    {"a child that begins again at the fresh state", 3000000, 60, 1000, 0, FRESH, NOTICES},
    {"a child that sends its own new number as already used", 3000000, 60, 1000, 0, OWN_USED, SELF_USES},
    {"a child that begins again at its mark in room 0 only", 3000000, 60, 1000, 0, ROOM_0_ONLY, NOTICES},
    {"a child that keeps a last mark for each room", 3000000, 60, 1000, 0, MARK_EACH, RESTARTS},
};

static void play_right(void) {
    static struct run run;
    unsigned long faults[CHECKS] = {0};
    for (size_t i = 0; i < sizeof right / sizeof *right; i++) {
        unsigned long mine[CHECKS] = {0};
        play(&run, &right[i], mine, i);
        printf("%s: %u rounds, %lu of them from an unfinished mark; %u files, %u to L; %lu marks, %lu records\n",
               right[i].name, run.rounds, run.torn, run.file, run.ended, run.marks, run.records);
        for (int k = 0; k < CHECKS; k++) {
            faults[k] += mine[k];
        }
    }
    for (int k = 0; k < CHECKS; k++) {
        verdict(faults[k] == 0, check_names[k]);
    }
}

static void play_wrong(void) {
    static struct run run;
    for (size_t i = 0; i < sizeof wrong / sizeof *wrong; i++) {
        unsigned long mine[CHECKS] = {0};
        play(&run, &wrong[i], mine, i);
        if (found(&run)) {
            printf("%s: caught in round %u; not so: %s\n", wrong[i].name, run.rounds, check_names[wrong[i].finder]);
        }
        verdict(found(&run) && mine[BEGINS] == 0, wrong[i].name);
    }
}

static void came(unsigned long count, const char *what, const char *name) {
    char whole[120];
    snprintf(whole, sizeof whole, "%s %s", what, name);
    printf("%s: %lu\n", whole, count);
    verdict(count > 0, whole);
}

/* Each of these must have come. */
static void judge_counts(void) {
    static const char *const digits[] = {"0", "1", "2", "3", "4", "5", "6", "7", "8", "9"};
    for (int i = 1; i < ROOM_MARK_BYTES; i++) {
        came(seen.torn[i], "restarts from an unfinished mark of length", digits[i]);
    }
    came(seen.empty, "restarts from a file", "of 0 marks");
    came(seen.thousand, "restarts from a file", "of at least 1,000 marks");
    for (int i = 0; i < CUTS; i++) {
        came(seen.cuts[i], "cuts", cut_names[i]);
    }
    came(seen.nth[1], "cuts inside", "the first mark of an answer");
    came(seen.nth[2], "cuts inside", "the second mark of an answer");
    came(seen.nth[3], "cuts inside", "the third mark of an answer");
    came(seen.mixed, "cuts inside", "a mark with bytes of an older one behind");
    came(seen.answers[2], "answers", "with two marks");
    came(seen.answers[3], "answers", "with three marks");
    came(seen.twice, "answers", "with a notice and two proposals");
    came(seen.viewed, "answers", "with a notice, a proposal and a view");
    came(seen.foreign, "marks", "that a used number alone calls for");
    came(seen.covered, "records", "without a mark, since another room's is high enough");
    for (int i = 0; i < ROOM_ROOMS; i++) {
        came(seen.rooms[i], "records of room", digits[i]);
    }
    came(seen.both, "rounds", "in which two rooms or more that had sent before the restart send again");
    came(seen.higher, "rooms", "that begin again above the last mark which they called for themselves");
    came(seen.just_below, "proposals", "whose used number for the sender is just below their own");
    printf("proposals: %lu\n", seen.proposals);
    verdict(seen.proposals >= 10000, "10,000 proposals in rounds that are the same in every run");
    came(seen.ended, "files", "that end at L");
    came(seen.full, "files", "that end at L with 2,000 marks");
}

int main(int count, char **words) {
    const char *given = count > 1 ? words[1] : getenv("TMPDIR");
    setvbuf(stdout, NULL, _IOLBF, 0);
    snprintf(directory, sizeof directory, "%s/crash.XXXXXX", given != NULL ? given : ".");
    if (mkdtemp(directory) == NULL) {
        perror(directory);
        return 1;
    }
    snprintf(path, sizeof path, "%s/marks", directory);
    signal(SIGINT, stopped);
    signal(SIGTERM, stopped);
    signal(SIGHUP, stopped);

    play_right();
    judge_counts();
    play_wrong();

    verdict(waitpid(-1, NULL, WNOHANG) < 0 && errno == ECHILD, "no child is left");
    remove_file();
    verdict(access(directory, F_OK) != 0, "no file is left");
    printf("%u passed, %u failed\n", passed, failed);
    return failed == 0 ? 0 : 1;
}
