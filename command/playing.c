/* Plays shots: each job of at most 500 is one call of the library, and begins where the one before ended. */
#include "list.h"
#include <errno.h>
#include <stdlib.h>
#include <string.h>

/* The bytes of so many lines. */
static size_t length_of(const uint8_t *bytes, size_t length, size_t lines) {
    size_t at = 0;
    for (; lines > 0 && at < length; lines--)
        at += (size_t)((const uint8_t *)memchr(bytes + at, '\n', length - at) - (bytes + at)) + 1;
    return at;
}

/* The listing of some shots, and its rows. */
static bool keep_listing(const uint8_t *listing, size_t length, playing *p) {
    static traverse rows;
    read_shots(listing, length, true, &rows);
    add_bytes(&p->listings, listing, length);
    if (p->listings.failed || !room_for(rows.count, &p->rows, p->count, &p->room, sizeof *p->rows)) return false;
    memcpy(p->rows + p->count, rows.shots, rows.count * sizeof *p->rows);
    p->count += rows.count;
    return true;
}

/* Plays one job: the first of its shots is this one of all. */
static int play_job(const survey *s, size_t first, playing *p) {
    static uint8_t listing[JABULGHI_LISTING_ROOM];
    size_t length, listed;
    uint32_t line;
    uint8_t *made = job_text(s, s->sigma, &length);
    if (made == NULL) return trouble(s->source.name, strerror(ENOMEM));
    uint32_t number = jabulghi_list(made, length, listing, sizeof listing, &line, &listed);
    free(made);
    if (number != JABULGHI_OK) return refuse_shot(&p->s, line < 3 ? line : line + first, number);
    return keep_listing(listing, listed, p) ? DONE : trouble(s->source.name, strerror(ENOMEM));
}

int play(playing *p) {
    survey part = p->s;
    size_t at = length_of(p->s.shots, p->s.length, p->start), first = p->start, most = MOST_SHOTS;
    int status = DONE;
    if (p->shots > most) note(SEVERAL_JOBS, p->s.source.name, p->shots, (p->shots + most - 1) / most);
    do {
        part.shots = p->s.shots + at;
        part.length = length_of(part.shots, p->s.length - at, most);
        status = play_job(&part, first, p);
        at += part.length;
        first += most;
        if (status == DONE && first < p->shots) status = skip_pairs(&part, most, 0, 0, NULL);
    } while (status == DONE && first < p->shots);
    return status;
}
