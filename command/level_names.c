/* Names that a job takes for the stations of a walk. */
#include "level.h"
#include <stdio.h>
#include <stdlib.h>
#include <string.h>

static bool is_letter_or_digit(char sign) {
    return (sign >= '0' && sign <= '9') || (sign >= 'A' && sign <= 'Z') || (sign >= 'a' && sign <= 'z');
}

/* The letters and digits from one place to another put before a name; false where they do not fit. */
static bool put_before(char *new_name, const char *from, const char *to) {
    char kept[NAME_ROOM] = "";
    size_t count = 0, length = strlen(new_name);
    for (; from < to; from++) {
        if (!is_letter_or_digit(*from)) continue;
        if (count + length + 1 == NAME_ROOM) return false;
        kept[count++] = *from;
    }
    memmove(new_name + count, new_name, length + 1);
    memcpy(new_name, kept, count);
    return true;
}

/* The last label and as many before it as fit, without points and signs; "" where the last has no letter or digit, or
 * too many. */
static void join_labels(const char *name, char *new_name) {
    const char *to = name + strlen(name);
    new_name[0] = '\0';
    while (to > name) {
        const char *from = to;
        while (from > name && from[-1] != '.') from--;
        if (!put_before(new_name, from, to) || new_name[0] == '\0') return;
        to = from > name ? from - 1 : from;
    }
}

static char small(char sign) { return sign >= 'A' && sign <= 'Z' ? (char)(sign + 32) : sign; }

static bool is_alike(const levelling *l, const char *one, const char *other) {
    if (l->by_case) return strcmp(one, other) == 0;
    while (*one != '\0' && small(*one) == small(*other)) one++, other++;
    return small(*one) == small(*other);
}

/* Names that are taken, by Fowler, Noll and Vo's hash: for each slot a station's place, counted from 1. */
typedef struct {
    size_t *slots, count;
} names;

/* The slot of a name, or the free one where it belongs. */
static size_t slot_of(const levelling *l, const names *taken, const char *new_name) {
    uint64_t hash = 14695981039346656037u;
    for (const char *at = new_name; *at != '\0'; at++) hash = (hash ^ (unsigned char)small(*at)) * 1099511628211u;
    size_t slot = (size_t)(hash ^ hash >> 32) % taken->count;
    while (taken->slots[slot] != 0 && !is_alike(l, l->stations[taken->slots[slot] - 1].new_name, new_name))
        slot = (slot + 1) % taken->count;
    return slot;
}

/* S1, S2 and so on: the next that no station has. */
static void number_station(levelling *l, names *taken, size_t place, unsigned *last) {
    char numbered[NAME_ROOM];
    size_t slot;
    do {
        snprintf(numbered, NAME_ROOM, "S%u", ++*last);
        slot = slot_of(l, taken, numbered);
    } while (taken->slots[slot] != 0);
    memcpy(l->stations[place].new_name, numbered, NAME_ROOM);
    taken->slots[slot] = place + 1;
}

static void add_station(levelling *l, names *taken, size_t station) {
    size_t same = l->s->stations[station].same;
    renamed *added = &l->stations[l->station_count];
    if (l->place[same] != 0) return;
    added->station = same;
    join_labels(l->s->stations[same].name, added->new_name);
    l->place[same] = ++l->station_count;
    if (added->new_name[0] == '\0') return;
    size_t slot = slot_of(l, taken, added->new_name);
    if (taken->slots[slot] == 0) taken->slots[slot] = l->station_count;
    else added->new_name[0] = '\0';
}

/* Names that are too long, or another station's already, are numbered last. */
static void name_stations(levelling *l, names *taken) {
    unsigned last = 0;
    for (size_t j = 0; j < l->walked.count; j++) {
        const struct survey_leg *leg = &l->s->legs[l->walked.steps[j].leg];
        add_station(l, taken, l->walked.steps[j].backwards ? leg->to : leg->from);
        add_station(l, taken, l->walked.steps[j].backwards ? leg->from : leg->to);
    }
    for (size_t j = 0; j < l->station_count; j++) {
        if (l->stations[j].new_name[0] == '\0') number_station(l, taken, j, &last);
    }
}

bool name_walk(levelling *l) {
    names taken = {NULL, 4 * l->walked.count + 1};
    taken.slots = calloc(taken.count, sizeof *taken.slots);
    l->stations = calloc(2 * l->walked.count, sizeof *l->stations);
    l->place = calloc(l->s->station_count, sizeof *l->place);
    bool has_room = taken.slots != NULL && l->stations != NULL && l->place != NULL;
    if (has_room) name_stations(l, &taken);
    free(taken.slots);
    return has_room || refuse_level(l, NO_MEMORY);
}
