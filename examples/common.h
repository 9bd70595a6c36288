/* How the examples say sets, numbers and records. */
#ifndef EXAMPLES_COMMON_H
#define EXAMPLES_COMMON_H

#include "room_words.h"

#include <stdio.h>

/* A set of seats, or of offices. */
static inline void say_set(const char *before, uint64_t set, const char *after) {
    printf("%s{", before);
    for (unsigned s = 0, many = 0; s < ROOM_SEATS; s++) {
        if (room_has(set, s)) printf(many++ ? ", %u" : "%u", s);
    }
    printf("}%s", after);
}

/* The numbers of the offices that have a seat in the members. */
static inline void say_numbers(const char *before, const uint32_t *numbers, uint64_t members) {
    printf("%s", before);
    for (unsigned o = 0, many = 0; o < ROOM_OFFICES; o++) {
        if (room_has_office(members, o)) printf(many++ ? ", %u of %u" : "%u of office %u", numbers[o], o);
    }
}

/* Where a real office sends a record of what room_step wrote, these say it, and to whom. */
static inline void say_sent(unsigned office, const struct room_sent *s) {
    struct room_notice n;
    struct room_proposal p;
    struct room_view v;
    if (s->to_seats) say_set("  to seats ", room_seats_of(s->members, office), ": ");
    else say_set("  to offices ", room_offices(s->members) & ~(1u << office), ": ");
    printf("room %u, ", s->room);
    if (room_notice_read(s->bytes, s->length, &n)) {
        printf("start notice %u", n.start);
        say_set(" of ", n.members, "");
    } else if (room_proposal_read(s->bytes, s->length, &p)) {
        printf("%s proposal %u", p.kind == ROOM_FAST ? "fast" : "slow", p.number);
        say_set(" of ", p.members, "");
        printf(", start %u", p.start);
        say_numbers(", used ", p.used, p.members);
    } else if (room_view_read(s->bytes, s->length, &v)) {
        printf("view %u", v.number);
        say_set(" of ", v.members, "");
        say_numbers(", starts ", v.starts, v.members);
    }
    printf("\n");
}

#endif
