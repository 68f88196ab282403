/* Trips: what was measured together, as *begin, *date and *team say. */
#include "reader.h"
#include <string.h>

static size_t new_trip(reader *r, const char *date, const char *team) {
    struct survey *s = r->s;
    const char *name = full_name(r, now(r)->prefix);
    if (name == NULL || !room_for_one(r, &s->trips, s->trip_count, &r->trip_room, sizeof *s->trips)) return SURVEY_NONE;
    s->trips[s->trip_count] = (struct survey_trip){r->at.file, r->at.number, name, date, team};
    return s->trip_count++;
}

/* The trip of a leg that is read here. */
size_t trip_now(reader *r) {
    settings *s = now(r);
    if (s->trip == SURVEY_NONE) {
        s->trip = new_trip(r, "", "");
        s->own_trip = true;
    }
    return s->trip == SURVEY_NONE ? 0 : s->trip;
}

/* Whether the last leg belongs to the trip that is open. */
static bool has_legs(const reader *r, size_t trip) {
    return r->s->leg_count > 0 && r->s->legs[r->s->leg_count - 1].trip == trip;
}

/* The trip that a date or a team belongs to: a new one where legs have been read in it, or where it began outside. */
static struct survey_trip *trip_to_describe(reader *r) {
    settings *s = now(r);
    if (s->trip == SURVEY_NONE || !s->own_trip || has_legs(r, s->trip)) {
        s->trip = new_trip(r, "", "");
        s->own_trip = true;
    }
    return s->trip == SURVEY_NONE ? NULL : &r->s->trips[s->trip];
}

static bool is_date(part word) {
    size_t digits = 0;
    for (size_t j = 0; j < word.length; j++) {
        if (word.bytes[j] >= '0' && word.bytes[j] <= '9') digits++;
        else if (word.bytes[j] != '.' && word.bytes[j] != '-') return false;
    }
    return digits >= 4;
}

void take_date(reader *r) {
    part word;
    if (!next_word(r, &word) || !is_date(word)) {
        complain(r, BAD_DATE, word);
        return;
    }
    struct survey_trip *trip = trip_to_describe(r);
    char *date = copy_of(r, word);
    if (trip != NULL && date != NULL) trip->date = date;
    ends_here(r);
}

void take_team(reader *r) {
    part person = next_string(r);
    struct survey_trip *trip = trip_to_describe(r);
    if (trip == NULL) return;
    size_t length = strlen(trip->team);
    char *team = allot(r, length + person.length + 3);
    if (team == NULL) return;
    memcpy(team, trip->team, length);
    if (length > 0) memcpy(team + length, ", ", 2), length += 2;
    if (person.length > 0) memcpy(team + length, person.bytes, person.length);
    team[length + person.length] = '\0';
    trip->team = team;
}
