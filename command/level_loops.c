/* The loops of a survey: each leg that joins two stations which legs before it have joined closes one, with the way
 * between them by those legs that closed none. */
#include "level.h"
#include <stdlib.h>

/* The legs that closed no loop, by station: for each end of a leg (2 j and 2 j + 1) the next end at the same station.
 * Ends are counted from 1. */
typedef struct {
    size_t *first, *next;
} ends;

/* What a search of the way leaves: the ends by which stations were reached, and the stations in the order in which they
 * were. */
typedef struct {
    size_t *by, *reached;
} search;

static size_t end_of(const struct survey *s, size_t end) {
    return s->stations[end % 2 == 0 ? s->legs[end / 2].from : s->legs[end / 2].to].same;
}

/* ---- Which legs close a loop */

static size_t piece_of(size_t *pieces, size_t one) {
    while (pieces[one] != one) one = pieces[one] = pieces[pieces[one]];
    return one;
}

static void join_legs(levelling *l, size_t *pieces) {
    for (size_t j = 0; j < l->s->leg_count; j++) {
        size_t a = piece_of(pieces, end_of(l->s, 2 * j)), b = piece_of(pieces, end_of(l->s, 2 * j + 1));
        l->closes[j] = a == b;
        l->loop_count += a == b;
        pieces[a < b ? b : a] = a < b ? a : b;
    }
}

static bool count_loops(levelling *l) {
    size_t *pieces = malloc(l->s->station_count * sizeof *pieces);
    l->closes = calloc(l->s->leg_count, sizeof *l->closes);
    bool has_room = pieces != NULL && l->closes != NULL;
    for (size_t j = 0; has_room && j < l->s->station_count; j++) pieces[j] = j;
    if (has_room) join_legs(l, pieces);
    free(pieces);
    return has_room || refuse_level(l, NO_MEMORY);
}

/* ---- The way from one station to another */

static void list_ends(const levelling *l, ends *e) {
    for (size_t end = 2 * l->s->leg_count; end-- > 0;) {
        if (l->closes[end / 2]) continue;
        size_t at = end_of(l->s, end);
        e->next[end] = e->first[at];
        e->first[at] = end + 1;
    }
}

/* Notes by which end each station beyond a leg of this one was reached; the count of stations reached. */
static size_t reach_from(const struct survey *s, const ends *e, size_t at, search *found, size_t count) {
    for (size_t end = e->first[at]; end != 0; end = e->next[end - 1]) {
        size_t other = end_of(s, (end - 1) ^ 1);
        if (found->by[other] != 0) continue;
        found->by[other] = end;
        found->reached[count++] = other;
    }
    return count;
}

/* From the closing leg's start on, until its end is reached; the start counts as reached. */
static void find_way(const struct survey *s, const ends *e, size_t closing, search *found) {
    size_t start = end_of(s, 2 * closing), goal = end_of(s, 2 * closing + 1), count = 1;
    found->by[start] = 2 * closing + 1;
    found->reached[0] = start;
    for (size_t j = 0; j < count && found->by[goal] == 0; j++)
        count = reach_from(s, e, found->reached[j], found, count);
}

/* The closing leg from its start to its end, and then the way back to the start. */
static void walk_back(const struct survey *s, const search *found, size_t closing, walk *w) {
    size_t start = end_of(s, 2 * closing), at = end_of(s, 2 * closing + 1);
    w->steps[0] = (step){closing, false};
    for (w->count = 1; at != start; w->count++) {
        size_t end = found->by[at] - 1; /* the leg was walked from this end, and is walked back to it */
        w->steps[w->count] = (step){end / 2, end % 2 == 0};
        at = end_of(s, end);
    }
}

/* The leg of that loop that stands first comes first, as it was written; the others follow from there. */
static bool start_at_first(walk *w) {
    size_t first = 0;
    step *turned = malloc(w->count * sizeof *turned);
    if (turned == NULL) return false;
    for (size_t j = 1; j < w->count; j++) first = w->steps[j].leg < w->steps[first].leg ? j : first;
    bool reversed = w->steps[first].backwards;
    for (size_t j = 0; j < w->count; j++) {
        step from = w->steps[(reversed ? first + w->count - j : first + j) % w->count];
        turned[j] = (step){from.leg, from.backwards != reversed};
    }
    free(w->steps);
    w->steps = turned;
    return true;
}

static size_t closing_leg(const levelling *l, uint64_t n) {
    size_t at = 0;
    for (uint64_t closed = 0; at < l->s->leg_count; at++) {
        closed += l->closes[at];
        if (closed == n) break;
    }
    return at;
}

bool find_loop(levelling *l, uint64_t n, walk *w) {
    const struct survey *s = l->s;
    size_t stations = s->station_count, closing = closing_leg(l, n);
    ends e = {calloc(stations, sizeof *e.first), calloc(2 * s->leg_count, sizeof *e.next)};
    search found = {calloc(stations, sizeof *found.by), calloc(stations, sizeof *found.reached)};
    *w = (walk){malloc((s->leg_count + 1) * sizeof *w->steps), 0, true};
    bool has_room = e.first != NULL && e.next != NULL && found.by != NULL && found.reached != NULL && w->steps != NULL;
    if (has_room) {
        list_ends(l, &e);
        find_way(s, &e, closing, &found);
        walk_back(s, &found, closing, w);
    }
    free(e.first), free(e.next), free(found.by), free(found.reached);
    return (has_room && start_at_first(w)) || refuse_level(l, NO_MEMORY);
}

/* ---- What is written */

bool walk_all(levelling *l) {
    l->walked = (walk){calloc(l->s->leg_count, sizeof *l->walked.steps), l->s->leg_count, false};
    if (l->walked.steps == NULL) return refuse_level(l, NO_MEMORY);
    for (size_t j = 0; j < l->walked.count; j++) l->walked.steps[j].leg = j;
    return true;
}

bool find_walk(levelling *l, uint64_t loop) {
    if (!count_loops(l)) return false;
    if (loop != ANY_LOOP && (loop == 0 || loop > l->loop_count)) return refuse_level(l, NO_SUCH_LOOP);
    if (loop == ANY_LOOP && l->loop_count > 1) return refuse_level(l, SEVERAL_LOOPS);
    bool found = l->loop_count == 0 ? walk_all(l) : find_loop(l, loop == ANY_LOOP ? 1 : loop, &l->walked);
    return found && (l->walked.count <= MOST_SHOTS || refuse_level(l, MANY_LEGS));
}
