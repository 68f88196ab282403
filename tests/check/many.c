/* many PLAYS FIRST [TAPE COMPASS CLINO STATION]: judges caves from standard input one after another, each "LENGTH
 * LINE\n" and so many bytes of Survex; prints for each whether it is sound, p, whether it closes too well, its bad
 * loops and loops, the station error that fits with its range in millimetres, and the rank of the leg of that LINE
 * among the suspects (0 where it is none). The errors are in metres and degrees. Cave j is played by seeds made of
 * FIRST + j. */
#include "../../judge/judge.h"
#include <inttypes.h>
#include <stdio.h>
#include <stdlib.h>

static void make_seeds(uint64_t number, uint32_t seeds[6]) {
    for (uint64_t j = 0; j < 6; j++) {
        uint64_t n = (6 * number + j + 1) * 0x9e3779b97f4a7c15;
        n = (n ^ n >> 30) * 0xbf58476d1ce4e5b9;
        n = (n ^ n >> 27) * 0x94d049bb133111eb;
        seeds[j] = (uint32_t)(n >> 32) | 256;
    }
}

/* Legs left out have no line of their own, and no rank. */
static size_t rank_of(const struct judge_cave *cave, const struct judge_verdict *v, size_t line) {
    size_t rank = 0;
    for (size_t j = 0; j < v->suspect_count; j++) {
        const struct judge_edge *e = &cave->edges[v->suspects[j].edge];
        if (v->suspects[j].best.blunder == JUDGE_LEFT_OUT) continue;
        rank++;
        if (e->kind == JUDGE_LEG && cave->survey->legs[e->index].line == line) return rank;
    }
    return 0;
}

static int judge_one(const struct survey *s, const struct judge_sigmas *sigmas, size_t plays, uint64_t number,
                     size_t line) {
    uint32_t seeds[6];
    struct judge_verdict v;
    struct judge_cave *cave = judge_solve(s, sigmas);
    struct judge_played *played = malloc(plays * sizeof *played);
    make_seeds(number, seeds);
    if (cave == NULL || played == NULL || judge_play(cave, seeds, 0, plays, played) != JABULGHI_OK ||
        !judge_verdict_of(cave, 0, played, plays, &v))
        return fprintf(stderr, "many: cave %" PRIu64 " is not judged\n", number), 1;
    printf("%d %.6g %d %zu %zu %.6g %.6g %.6g %zu\n", v.sound, v.p, v.too_well, v.bad_loops, cave->loop_count,
           1000 * v.station.value, 1000 * v.station.low, 1000 * v.station.high, rank_of(cave, &v, line));
    fflush(stdout);
    judge_verdict_free(&v);
    judge_free(cave);
    free(played);
    return 0;
}

static int read_one(const struct judge_sigmas *sigmas, size_t plays, uint64_t number, size_t length, size_t line) {
    uint8_t *bytes = malloc(length + 1);
    if (bytes == NULL || fread(bytes, 1, length, stdin) != length) return fprintf(stderr, "many: bytes lack\n"), 1;
    struct survey *s = survey_read("cave.svx", bytes, length, NULL, NULL);
    free(bytes);
    if (s == NULL || s->trouble_count > 0)
        return fprintf(stderr, "many: cave %" PRIu64 ": %s\n", number, s == NULL ? "no memory" : s->troubles[0].text),
               1;
    int status = judge_one(s, sigmas, plays, number, line);
    survey_free(s);
    return status;
}

int main(int count, char **words) {
    static const enum judge_error ERRORS[] = {JUDGE_TAPE, JUDGE_COMPASS, JUDGE_CLINO, JUDGE_STATION};
    struct judge_sigmas sigmas = {{0}, {false}, "the study"};
    size_t length, line;
    int status = 0;
    if (count != 3 && count != 7) return 2;
    for (int j = 3; j < count; j++) {
        sigmas.of[ERRORS[j - 3]] = strtod(words[j], NULL);
        sigmas.given[ERRORS[j - 3]] = true;
    }
    for (uint64_t number = strtoull(words[2], NULL, 10); status == 0 && scanf("%zu %zu%*c", &length, &line) == 2;
         number++)
        status = read_one(&sigmas, strtoul(words[1], NULL, 10), number, length, line);
    return status;
}
