/* Adds up parts that `jabulghi check --json` wrote: plays of one cave with the same seeds, which follow each other
 * without a gap, in any order of the files. */
#include "check.h"
#include <errno.h>
#include <stdlib.h>
#include <string.h>

typedef struct {
    const char *name;
    char *bytes;
    const char *played;
    uint64_t first, plays;
    double statistic, hold;
    uint32_t seeds[6];
} part;

static int by_first(const void *a, const void *b) {
    const part *one = a, *other = b;
    return (one->first > other->first) - (one->first < other->first);
}

/* What stands behind a member's name, or NULL. */
static const char *member(const part *p, const char *name) {
    const char *at = strstr(p->bytes, name);
    return at == NULL ? NULL : at + strlen(name);
}

static bool read_members(part *p) {
    const char *statistic = member(p, "\n  \"statistic\": "), *seeds = member(p, "\n  \"seeds\": ["),
               *first = member(p, "\n  \"first\": "), *plays = member(p, "\n  \"plays\": ");
    const char *hold = member(p, "\n  \"hold\": ");
    p->played = member(p, "\n  \"played\": [\n");
    if (statistic == NULL || seeds == NULL || first == NULL || plays == NULL || p->played == NULL || hold == NULL)
        return false;
    p->statistic = strtod(statistic, NULL);
    p->hold = strtod(hold, NULL);
    p->first = strtoull(first, NULL, 10);
    p->plays = strtoull(plays, NULL, 10);
    for (int j = 0; j < 6; j++) {
        char *end;
        p->seeds[j] = (uint32_t)strtoul(seeds, &end, 10);
        seeds = end + (*end == ',');
    }
    return p->plays > 0 && p->plays <= UINT64_MAX - p->first && p->plays <= strlen(p->played) / 4;
}

static int read_file(const char *name, part *p) {
    text source;
    int status = read_text(name, &source);
    if (status != DONE) return status;
    p->name = source.name;
    p->bytes = calloc(source.length + 1, 1);
    if (p->bytes == NULL) return trouble(name, strerror(ENOMEM));
    memcpy(p->bytes, source.bytes, source.length);
    free(source.bytes);
    return read_members(p) ? DONE : wrong(NO_PART, p->name);
}

/* The plays of a part: [worst leg, worst loop], .. */
static bool read_plays(const part *p, struct judge_played *played) {
    const char *at = p->played;
    for (uint64_t j = 0; j < p->plays; j++) {
        char *comma, *end;
        if (*at != '[') return false;
        played[j].worst_passage = strtod(at + 1, &comma);
        if (*comma != ',') return false;
        played[j].worst_loop = strtod(comma + 1, &end);
        if (*end != ']' || !(played[j].worst_passage >= 0) || !(played[j].worst_loop >= 0)) return false;
        at = end + 1 + strspn(end + 1, ",\n");
    }
    return true;
}

/* Whether a part is of this cave, and goes on where the one before it ends. */
static int follows(const part *parts, size_t j, const struct judge_cave *cave) {
    const part *p = &parts[j];
    bool same = p->statistic == cave->statistic && p->hold == judge_hold(cave) &&
                memcmp(p->seeds, parts[0].seeds, sizeof p->seeds) == 0;
    if (!same) return wrong(OTHER_PLAYS, p->name);
    if (j == 0) return DONE;
    uint64_t end = p[-1].first + p[-1].plays;
    if (end > p->first) return wrong(SAME_RUNS, p->name, p[-1].name);
    if (end < p->first) return wrong(MISSING_RUNS, end, p->first - 1);
    return DONE;
}

int merge_plays(int count, char **names, const struct merged *all) {
    part *parts = calloc((size_t)count, sizeof parts[0]);
    uint64_t plays = 0;
    int status = parts == NULL ? trouble("--merge", strerror(ENOMEM)) : DONE;
    for (int j = 0; status == DONE && j < count; j++) status = read_file(names[j], &parts[j]);
    if (status != DONE) return TROUBLE;
    qsort(parts, (size_t)count, sizeof parts[0], by_first);
    for (int j = 0; j < count; j++) plays += parts[j].plays;
    *all->played = malloc((size_t)plays * sizeof **all->played);
    if (*all->played == NULL) return trouble("--merge", strerror(ENOMEM));
    *all->plays = 0;
    *all->first = parts[0].first;
    memcpy(all->seeds, parts[0].seeds, sizeof parts[0].seeds);
    for (int j = 0; status == DONE && j < count; j++) {
        status = follows(parts, (size_t)j, all->cave);
        if (status == DONE && !read_plays(&parts[j], *all->played + *all->plays))
            status = wrong(NO_PART, parts[j].name);
        *all->plays += parts[j].plays;
    }
    return status;
}
