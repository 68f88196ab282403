/* Fixed points and stations that are the same. */
#include "reader.h"
#include <string.h>

/* ---- Systems of coordinates */

/* The words of a system are compared as they stand; coordinates are not converted. */
void take_cs(reader *r) {
    part word;
    if (!next_word(r, &word)) {
        complain(r, MORE_WORDS, NO_WORD);
        return;
    }
    bool out = is_word(word, "out");
    if (out && !next_word(r, &word)) {
        complain(r, MORE_WORDS, NO_WORD);
        return;
    }
    const uint8_t *end = r->at.line_end;
    part system = {word.bytes, (size_t)(end - word.bytes)};
    for (size_t j = 0; j < system.length; j++) {
        if (has_sign(r, system.bytes[j], SIGN_COMMENT) && system.bytes[0] != '"') system.length = j;
    }
    while (system.length > 0 && has_sign(r, system.bytes[system.length - 1], SIGN_BLANK)) system.length--;
    if (!out) now(r)->system = system;
    else if (r->output_system.length == 0) r->output_system = system;
    r->at.word = end;
}

static bool is_same_text(part one, part other) {
    if (one.length != other.length) return false;
    for (size_t j = 0; j < one.length; j++) {
        if ((one.bytes[j] | 32) != (other.bytes[j] | 32)) return false;
    }
    return true;
}

/* ---- *fix */

static bool is_at(const struct survey_fix *one, const struct survey_fix *other) {
    return one->east == other->east && one->north == other->north && one->up == other->up;
}

/* The numbers after the station, as many as there are up to nine. */
static bool read_fix(reader *r, double numbers[9], size_t *count) {
    part word;
    for (*count = 0; next_word(r, &word); ++*count) {
        if (*count == 9 || !read_number(r, word, &numbers[*count], NULL)) return complain(r, BAD_FIX, word), false;
    }
    bool fits = *count == 0 || (*count >= 3 && *count <= 6) || *count == 9;
    if (!fits) complain(r, BAD_FIX, NO_WORD);
    return fits;
}

static struct survey_fix fix_of(const reader *r, size_t station, const double n[9], size_t count) {
    struct survey_fix made = {r->at.file, r->at.number, station, n[0], n[1], n[2], 0, 0, 0};
    if (count > 3) made.sd_east = made.sd_north = made.sd_up = n[3];
    if (count > 4) made.sd_up = n[4];
    if (count > 5) made.sd_north = n[4], made.sd_up = n[5];
    return made;
}

static void add_fix(reader *r, struct survey_fix made) {
    struct survey *s = r->s;
    struct survey_station *station = &s->stations[same_as(s, made.station)];
    if (station->fix != SURVEY_NONE) {
        if (is_at(&s->fixes[station->fix], &made)) remark(r, FIXED_TWICE, NO_WORD);
        else complain(r, FIXED_ELSEWHERE, NO_WORD);
        return;
    }
    if (!room_for_one(r, &s->fixes, s->fix_count, &r->fix_room, sizeof *s->fixes)) return;
    station->fix = s->fix_count;
    s->fixes[s->fix_count++] = made;
}

void take_fix(reader *r) {
    part word;
    double numbers[9] = {0};
    size_t count;
    if (!next_word(r, &word)) {
        complain(r, BAD_NAME, NO_WORD);
        return;
    }
    size_t station = station_named(r, word);
    if (station == SURVEY_NONE) return;
    if (peek_word(r, &word) && is_word(word, "reference")) next_word(r, &word);
    if (!read_fix(r, numbers, &count)) return;
    if (count == 0 && r->fixed_nowhere) {
        complain(r, FIXED_NOWHERE, NO_WORD);
        return;
    }
    r->fixed_nowhere = r->fixed_nowhere || count == 0;
    if (now(r)->system.length > 0 && !is_same_text(now(r)->system, r->output_system)) {
        remark(r, CONVERTED_FIXES, NO_WORD);
        return;
    }
    add_fix(r, fix_of(r, station, numbers, count));
}

/* ---- Equates */

void join_stations(reader *r, size_t one, size_t other) {
    struct survey *s = r->s;
    size_t a = same_as(s, one), b = same_as(s, other), fix = s->stations[a].fix, other_fix = s->stations[b].fix;
    if (one == other) {
        remark(r, EQUATED_TO_ITSELF, NO_WORD);
        return;
    }
    if (a != b && fix != SURVEY_NONE && other_fix != SURVEY_NONE && !is_at(&s->fixes[fix], &s->fixes[other_fix])) {
        complain(r, FIXES_DIFFER, NO_WORD);
        return;
    }
    if (!room_for_one(r, &s->equates, s->equate_count, &r->equate_room, sizeof *s->equates)) return;
    s->equates[s->equate_count++] = (struct survey_equate){r->at.file, r->at.number, one, other};
    make_same(r, one, other);
}

void take_equate(reader *r) {
    part word;
    size_t first = SURVEY_NONE, count = 0;
    for (; next_word(r, &word); count++) {
        size_t next = station_named(r, word);
        if (next == SURVEY_NONE) return;
        if (count > 0) join_stations(r, first, next);
        else first = next;
    }
    if (count < 2) complain(r, FEW_EQUATES, NO_WORD);
}

void take_entrance(reader *r) {
    part word;
    if (!next_word(r, &word)) {
        complain(r, BAD_NAME, NO_WORD);
        return;
    }
    size_t station = station_named(r, word);
    if (station != SURVEY_NONE) r->s->stations[station].entrance = true;
    ends_here(r);
}
