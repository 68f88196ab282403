/* Reads a part that --json wrote. A text that was written in any other way is no part. */
#include "tolerance.h"
#include <errno.h>
#include <stdlib.h>
#include <string.h>

/* A place in a part's text, which a NUL ends; good until something else stands there than must. */
typedef struct {
    const char *at;
    bool good;
} place;

static void pass(place *p, const char *word) {
    p->good = p->good && strncmp(p->at, word, strlen(word)) == 0;
    if (p->good) p->at += strlen(word);
}

/* Passes over all up to a word, and over the word. */
static void pass_to(place *p, const char *word) {
    const char *found = p->good ? strstr(p->at, word) : NULL;
    p->good = found != NULL;
    if (p->good) p->at = found + strlen(word);
}

static uint64_t whole(place *p) {
    char *end;
    p->good = p->good && *p->at >= '0' && *p->at <= '9';
    if (!p->good) return 0;
    errno = 0;
    uint64_t number = strtoull(p->at, &end, 10);
    p->good = errno == 0;
    p->at = end;
    return number;
}

/* A decimal that is not beyond 10^30 in size: neither infinite nor no number. */
static double real(place *p) {
    char *end;
    if (!p->good) return 0;
    double number = strtod(p->at, &end);
    p->good = end > p->at && number > -1e30 && number < 1e30;
    p->at = end;
    return number;
}

/* The lines of the job, each between quotation marks, as one text. */
static void read_job(place *p, size_t room, text *job) {
    bool more = true;
    pass_to(p, "\n  \"job\": [\n");
    job->length = 0;
    job->bytes = malloc(room);
    p->good = p->good && job->bytes != NULL;
    while (p->good && more) {
        pass(p, "    \"");
        const char *end = p->good ? strchr(p->at, '"') : NULL;
        p->good = end != NULL;
        if (!p->good) return;
        memcpy(job->bytes + job->length, p->at, (size_t)(end - p->at));
        job->length += (size_t)(end - p->at);
        job->bytes[job->length++] = '\n';
        p->at = end + 1;
        more = *p->at == ',';
        pass(p, more ? ",\n" : "\n");
    }
    pass(p, "  ],\n");
}

/* One step and its runs, after the steps before it. */
static void read_bar(place *p, histogram *h, uint64_t left) {
    pass(p, h->size == 0 ? "[" : ", [");
    bar *b = &h->bars[h->size++];
    b->at = whole(p);
    pass(p, ", ");
    b->count = whole(p);
    pass(p, "]");
    p->good =
        p->good && (h->size == 1 || b->at > b[-1].at) && b->count > 0 && b->count <= left && b->at < (uint64_t)1 << 40;
}

/* The steps in rising order; together they have all the runs. */
static void read_steps(place *p, const char *name, uint64_t runs, size_t room, histogram *h) {
    uint64_t left = runs;
    pass(p, name);
    *h = (histogram){0, malloc(room / 4 * sizeof h->bars[0])}; /* a step takes more than four bytes */
    p->good = p->good && h->bars != NULL;
    while (p->good && left > 0) {
        read_bar(p, h, left);
        if (p->good) left -= h->bars[h->size - 1].count;
    }
    pass(p, "]");
}

/* What stands behind a name. */
static uint64_t number_at(place *p, const char *name) {
    pass(p, name);
    uint64_t number = whole(p);
    pass(p, ",\n");
    return number;
}

static void reals_at(place *p, const char *name, double *numbers, size_t count) {
    pass(p, name);
    for (size_t j = 0; j < count; j++) {
        numbers[j] = real(p);
        pass(p, j + 1 < count ? ", " : "],\n");
    }
}

/* The errors of stations and of the clino, and what they add, where there are any. */
static const char MORE[] = "  \"more\": [";

bool read_part(const char *bytes, size_t length, part *read) {
    place p = {bytes, true};
    double miss[2], more[5] = {0}, sums[5];
    tally *runs = &read->runs;
    *runs = (tally){0};
    read_job(&p, length + 1, &read->job);
    runs->first = number_at(&p, "  \"first\": ");
    runs->runs = number_at(&p, "  \"runs\": ");
    reals_at(&p, "  \"miss\": [", miss, 2);
    if (p.good && strncmp(p.at, MORE, strlen(MORE)) == 0) reals_at(&p, MORE, more, 5);
    runs->beyond = number_at(&p, "  \"beyond\": ");
    runs->farther = number_at(&p, "  \"farther\": ");
    reals_at(&p, "  \"sums\": [", sums, 5);
    runs->width = number_at(&p, "  \"width\": ");
    read_steps(&p, "  \"steps_east\": [", runs->runs, length + 4, &runs->of[EAST]);
    pass(&p, ",\n");
    read_steps(&p, "  \"steps_north\": [", runs->runs, length + 4, &runs->of[NORTH]);
    pass(&p, ",\n");
    read_steps(&p, "  \"steps_distance\": [", runs->runs, length + 4, &runs->of[DISTANCE]);
    pass(&p, "\n}\n");
    if (!p.good || *p.at != '\0') return false;
    read->miss = (vector){miss[0], miss[1]};
    read->station = more[0];
    read->clino = more[1];
    read->more = (covariance){more[2], more[3], more[4]};
    runs->sum = (vector){sums[0], sums[1]};
    runs->squares = (vector){sums[2], sums[3]};
    runs->product = sums[4];
    bool possible = runs->beyond <= runs->runs && runs->farther <= runs->runs && sums[2] >= 0 && sums[3] >= 0;
    return possible && runs->runs > 0 && runs->runs <= UINT64_MAX - runs->first && runs->width > 0 &&
           runs->width <= 1000000;
}
