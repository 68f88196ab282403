/* Adds up parts that --json wrote: parts of one job and one miss, whose runs follow each other without a gap, in any
 * order of the files. */
#include "tolerance.h"
#include <errno.h>
#include <stdlib.h>
#include <string.h>

static int by_first(const void *a, const void *b) {
    const part *one = a, *other = b;
    return (one->runs.first > other->runs.first) - (one->runs.first < other->runs.first);
}

static int read_file(const char *name, part *read) {
    text source;
    int status = read_text(name, &source);
    if (status != DONE) return status;
    char *bytes = calloc(source.length + 1, 1);
    if (bytes == NULL) return trouble(name, strerror(ENOMEM));
    memcpy(bytes, source.bytes, source.length);
    read->job.name = source.name;
    bool good = read_part(bytes, source.length, read);
    free(bytes);
    free(source.bytes);
    if (!good) wrong(NO_PART, source.name);
    return good ? DONE : REFUSED;
}

/* Whether a part goes on where the one before it ends, with the same job. */
static int follows(const part *before, const part *next) {
    bool same =
        before->job.length == next->job.length && memcmp(before->job.bytes, next->job.bytes, next->job.length) == 0;
    same = same && before->miss.east == next->miss.east && before->miss.north == next->miss.north &&
           before->runs.width == next->runs.width;
    same = same && before->station == next->station && before->clino == next->clino &&
           memcmp(&before->more, &next->more, sizeof next->more) == 0;
    uint64_t end = before->runs.first + before->runs.runs;
    if (!same) return wrong(OTHER_PART, next->job.name, before->job.name), REFUSED;
    if (end > next->runs.first) return wrong(SAME_RUNS, next->job.name, before->job.name), REFUSED;
    if (end < next->runs.first) return wrong(MISSING_RUNS, end, next->runs.first - 1), REFUSED;
    return DONE;
}

/* The steps of both in rising order. */
static bool add_bars(histogram *all, const histogram *more) {
    size_t a = 0, b = 0, size = 0;
    bar *sum = malloc((all->size + more->size) * sizeof sum[0]);
    while (sum != NULL && (a < all->size || b < more->size)) {
        bool from_all = b == more->size || (a < all->size && all->bars[a].at <= more->bars[b].at);
        bar next = from_all ? all->bars[a++] : more->bars[b++];
        if (size > 0 && sum[size - 1].at == next.at) sum[size - 1].count += next.count;
        else sum[size++] = next;
    }
    free(all->bars);
    *all = (histogram){size, sum};
    return sum != NULL;
}

static int add_part(tally *all, const tally *more) {
    bool good = true;
    all->runs += more->runs;
    all->beyond += more->beyond;
    all->farther += more->farther;
    all->sum.east += more->sum.east;
    all->sum.north += more->sum.north;
    all->squares.east += more->squares.east;
    all->squares.north += more->squares.north;
    all->product += more->product;
    for (int j = 0; good && j < MEASURES; j++) good = add_bars(&all->of[j], &more->of[j]);
    return good ? DONE : trouble("--merge", strerror(ENOMEM));
}

/* The loop of the parts; its own miss is tested and found again. */
static int take_loop(const part *first, const tally *all, task *t) {
    int status = take_survey(first->job, (wanted_loop){ANY_LOOP, true, false}, &t->s);
    t->miss = first->miss;
    t->given = true;
    t->first = all->first;
    t->s.station = first->station;
    t->s.clino = first->clino;
    t->more = first->more;
    t->runs = all->runs;
    if (status == DONE) status = prepare(t, "--merge");
    t->given = t->miss.east != (double)t->own[0] || t->miss.north != (double)t->own[1];
    return status;
}

int merge(int count, char **names, task *t, tally *all) {
    int status = DONE;
    part *parts = calloc((size_t)count, sizeof parts[0]);
    if (parts == NULL) return trouble("--merge", strerror(ENOMEM));
    for (int j = 0; status == DONE && j < count; j++) status = read_file(names[j], &parts[j]);
    if (status != DONE) return status;
    qsort(parts, (size_t)count, sizeof parts[0], by_first);
    *all = parts[0].runs;
    for (int j = 1; status == DONE && j < count; j++) {
        status = follows(&parts[j - 1], &parts[j]);
        if (status == DONE) status = add_part(all, &parts[j].runs);
    }
    return status == DONE ? take_loop(&parts[0], all, t) : status;
}
