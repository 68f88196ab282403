/* An ordinary survey that was played: its text, included files in their places, with other readings. */
#include "cave.h"
#include "level.h"
#include "svx.h"
#include <errno.h>
#include <stdlib.h>
#include <string.h>

/* A text on its way: the edits and included files that come next. */
typedef struct {
    const struct survey *s;
    edits made;
    size_t edit, include;
    growing *to;
} writing;

/* ---- Bytes */

/* Latin-1 becomes UTF-8 where several files become one. */
static void put_bytes(writing *w, size_t file, size_t from, size_t to) {
    const struct survey_file *f = &w->s->files[file];
    bool convert = f->latin1 && w->s->file_count > 1;
    if (!convert) add_bytes(w->to, f->bytes + from, to - from);
    for (size_t j = from; convert && j < to; j++) {
        uint8_t byte = f->bytes[j], two[2] = {(uint8_t)(0xc0 | byte >> 6), (uint8_t)(0x80 | (byte & 0x3f))};
        if (byte < 128) add_bytes(w->to, &byte, 1);
        else add_bytes(w->to, two, 2);
    }
}

static void end_line(writing *w) {
    if (w->to->length > 0 && !w->to->failed && strchr("\r\n", w->to->bytes[w->to->length - 1]) == NULL)
        add(w->to, "\n");
}

/* What some editors put before UTF-8 stands at the start of a file alone. */
static size_t start_of(const struct survey_file *f) {
    return f->length >= 3 && memcmp(f->bytes, "\xef\xbb\xbf", 3) == 0 ? 3 : 0;
}

/* ---- Files */

static void put_text(writing *w, size_t file, size_t last);

static void put_edit(writing *w) {
    add(w->to, "%s", w->made.all[w->edit].text);
    w->edit++;
}

/* The line becomes a comment, before what was included. */
static void put_include(writing *w) {
    const struct survey_include *one = &w->s->includes[w->include++];
    add(w->to, "; ");
    put_bytes(w, one->file, one->at, one->end);
    end_line(w);
    put_text(w, one->included, one->last);
    end_line(w);
    add(w->to, "; end of ");
    put_name(w->s->files[one->included].name, w->to);
    add(w->to, "\n");
}

/* A file with the words of its legs, which come before leg `last` of all. */
static void put_text(writing *w, size_t file, size_t last) {
    const struct survey *s = w->s;
    size_t at = start_of(&s->files[file]);
    for (;;) {
        const edit *e = w->edit < w->made.count ? &w->made.all[w->edit] : NULL;
        const struct survey_include *i = w->include < s->include_count ? &s->includes[w->include] : NULL;
        if (e != NULL && (e->file != file || e->at < at || e->leg >= last)) e = NULL;
        if (i != NULL && (i->file != file || i->at < at)) i = NULL;
        if (e != NULL && i != NULL && i->at < e->at) e = NULL;
        if (e == NULL && i == NULL) break;
        put_bytes(w, file, at, e != NULL ? e->at : i->at);
        at = e != NULL ? e->at + e->length : i->end;
        if (e != NULL) put_edit(w);
        else put_include(w);
    }
    put_bytes(w, file, at, s->files[file].length);
}

/* ---- The survey */

static bool is_as_played(const playing *p, const struct survey *again, size_t leg) {
    const struct survey *s = p->s.read;
    const struct survey_leg *one = &s->legs[leg], *other = &again->legs[leg];
    return strcmp(s->stations[one->from].name, again->stations[other->from].name) == 0 &&
           strcmp(s->stations[one->to].name, again->stations[other->to].name) == 0 &&
           plan_mm(other) == p->rows[leg].distance && bearing_steps(other, false) == p->rows[leg].bearing;
}

/* The first leg that is not read as it was played, or the count of legs. */
static size_t first_other(const playing *p, const struct survey *again) {
    size_t all = p->s.read->leg_count, leg = 0;
    while (leg < all && leg < again->leg_count && is_as_played(p, again, leg)) leg++;
    return leg == all && (again->trouble_count > 0 || again->leg_count != all) ? all - 1 : leg;
}

static int refuse_cave(const struct survey *s, size_t leg) {
    return refuse_leg(s->files[s->legs[leg].file].name, s->legs[leg].line, NOT_READ_AGAIN);
}

/* What was written is read again before it is given. */
static int read_again(const playing *p, const growing *written) {
    struct survey *again = survey_read(p->s.source.name, (const uint8_t *)written->bytes, written->length, NULL, NULL);
    if (again == NULL) return trouble(p->s.source.name, strerror(ENOMEM));
    size_t other = first_other(p, again);
    survey_free(again);
    return other == p->s.read->leg_count ? DONE : refuse_cave(p->s.read, other);
}

int put_survey(const playing *p, growing *to) {
    const struct survey *s = p->s.read;
    writing w = {s, {NULL, 0, 0, {0}}, 0, 0, to};
    for (size_t j = 0; j < s->leg_count; j++) {
        if (!add_edits(s, j, &p->rows[j], &w.made)) return refuse_cave(s, j);
    }
    if (start_of(&s->files[0]) > 0) add(to, "\xef\xbb\xbf");
    put_head(p, to);
    put_text(&w, 0, s->leg_count);
    free(w.made.all);
    return to->failed ? trouble(p->s.source.name, strerror(ENOMEM)) : read_again(p, to);
}
