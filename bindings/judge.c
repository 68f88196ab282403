/* A case of `check` or `tolerance`: the command's steps, over files in memory. */
#include "judge.h"
#include "inside.h"
#include <errno.h>
#include <stdlib.h>
#include <string.h>

/* Where messages go and files come from: the case whose call runs. */
static jabulghi_case *current;

/* ---- What the command takes of its system */

void put_error_values(const char *format, va_list values) { add_values(&current->texts[CASE_SAID], format, values); }

void put_error(const char *format, ...) {
    va_list values;
    va_start(values, format);
    put_error_values(format, values);
    va_end(values);
}

uint64_t system_processors(void) { return 1; }

/* The numbers are there once: others would not be random. */
int system_random(uint32_t numbers[6]) {
    if (current->drawn) return trouble("seeds", "unfit");
    current->drawn = true;
    memcpy(numbers, current->random, sizeof current->random);
    return DONE;
}

static char small(char sign) { return sign >= 'A' && sign <= 'Z' ? (char)(sign + 32) : sign; }

static const char *last_part(const char *name) {
    const char *last = name;
    for (; *name != '\0'; name++) last = *name == '/' || *name == '\\' ? name + 1 : last;
    return last;
}

static bool is_alike(const char *one, const char *other) {
    while (*one != '\0' && small(*one) == small(*other)) one++, other++;
    return small(*one) == small(*other);
}

/* The file of that name, or with the same last part; NULL where there is none. */
static const text *file_of(const char *name) {
    for (size_t j = 0; j < current->file_count; j++) {
        if (strcmp(current->files[j].name, name) == 0) return &current->files[j];
    }
    for (size_t j = 0; current->loose && j < current->file_count; j++) {
        if (is_alike(last_part(current->files[j].name), last_part(name))) return &current->files[j];
    }
    return NULL;
}

/* What is there is no folder. */
unsigned system_mode(const char *name) {
    const text *file = file_of(name);
    if (file == NULL) add(&current->texts[CASE_MISSING], "%s\n", name);
    return file != NULL;
}

int read_text(const char *name, text *read) {
    const text *file = file_of(name);
    *read = (text){name, malloc(file->length + 1), file->length};
    if (read->bytes == NULL) return trouble(name, strerror(ENOMEM));
    memcpy(read->bytes, file->bytes, file->length);
    if (strcmp(file->name, name) != 0) add(&current->texts[CASE_FOUND], "%s\n%s\n", name, file->name);
    return DONE;
}

/* ---- Cases */

jabulghi_case *jabulghi_case_new(const char *command, const char *words, size_t length, const uint32_t *random) {
    jabulghi_case *c = calloc(1, sizeof *c);
    if (c == NULL) return NULL;
    c->checks = strcmp(command, "check") == 0;
    c->words = malloc(length + 1);
    c->word_length = length;
    memcpy(c->random, random, sizeof c->random);
    if (c->words == NULL) return free(c), NULL;
    memcpy(c->words, words, length);
    return c;
}

/* Forgets what a survey was read to. */
static void forget(jabulghi_case *c) {
    judge_free(c->check.cave);
    survey_free(c->check.survey);
    free(c->check.played);
    free_task(&c->task);
    c->check = (checked){0};
    c->task = (task){0};
    c->drawn = false;
    for (int j = 0; j < CASE_TEXTS; j++) c->texts[j].length = 0;
}

void jabulghi_case_free(jabulghi_case *c) {
    if (c == NULL) return;
    forget(c);
    for (int j = 0; j < CASE_TEXTS; j++) free(c->texts[j].bytes);
    for (size_t j = 0; j < c->file_count; j++) free((char *)c->files[j].name), free(c->files[j].bytes);
    free(c->files);
    free(c->options);
    free(c->words);
    free(c);
}

int jabulghi_case_file(jabulghi_case *c, const char *name, const uint8_t *bytes, size_t length) {
    char *called = malloc(strlen(name) + 1);
    uint8_t *copy = malloc(length + 1);
    if (called == NULL || copy == NULL || !room_for(1, &c->files, c->file_count, &c->file_room, sizeof *c->files))
        return free(called), free(copy), 0;
    memcpy(called, name, strlen(name) + 1);
    memcpy(copy, bytes, length);
    c->files[c->file_count++] = (text){called, copy, length};
    /* cppcheck-suppress memleak ; they are in `files` */
    return 1;
}

void jabulghi_case_loose(jabulghi_case *c) { c->loose = true; }

/* The words as the command gets them; the count of them, or -1. */
static int split(jabulghi_case *c, char ***words) {
    size_t count = 0, room = 0;
    free(c->options);
    c->options = NULL;
    for (size_t at = 0; at < c->word_length; at += strlen(c->words + at) + 1) {
        if (!room_for(1, &c->options, count, &room, sizeof *c->options)) return -1;
        c->options[count++] = c->words + at;
    }
    *words = c->options;
    return (int)count;
}

static int begin_check(jabulghi_case *c, int count, char **words) {
    option asked[CHECK_ASKED];
    int status = options_of_check(&count, words, asked);
    if (status == DONE && count > 0) status = wrong(NO_FILE, words[0], "check");
    if (status == DONE) status = numbers_of_check(asked, &c->check);
    if (status == DONE) status = prepare_check(asked, c->files[0], &c->check);
    if (status == DONE && c->check.cave->loop_count > 0) status = room_for_plays(&c->check);
    return status == DONE ? DONE : TROUBLE;
}

static int begin_tolerance(jabulghi_case *c, int count, char **words) {
    option asked[TOLERANCE_ASKED];
    int status = options_of_tolerance(&count, words, asked);
    if (status == DONE && count > 0) status = wrong(NO_FILE, words[0], "tolerance");
    if (status == DONE) status = numbers_of_tolerance(asked, &c->task);
    if (status == DONE) status = prepare_tolerance(asked, c->files[0], &c->task);
    return status == DONE ? room_for_runs(&c->task) : status;
}

int jabulghi_case_begin(jabulghi_case *c) {
    char **words;
    current = c;
    forget(c);
    int count = split(c, &words);
    if (count < 0 || c->file_count == 0) return trouble("survey", strerror(ENOMEM));
    c->taken = false;
    int status = (c->checks ? begin_check : begin_tolerance)(c, count, words);
    c->taken = status == DONE;
    return status;
}

/* ---- Plays */

uint32_t jabulghi_case_plays(const jabulghi_case *c) {
    if (!c->taken) return 0;
    return (uint32_t)(!c->checks ? c->task.runs : c->check.cave->loop_count > 0 ? c->check.plays : 0);
}

uint32_t jabulghi_case_least(const jabulghi_case *c) { return c->checks ? LEAST_PLAYS : 1; }

uint32_t jabulghi_case_play(jabulghi_case *c, uint32_t start, uint32_t count) {
    uint32_t all = jabulghi_case_plays(c);
    if (start > all || count > all - start) return JABULGHI_COUNT_FULL;
    if (c->checks) return play_some_of_check(&c->check, start, count);
    return play_some_runs(&c->task, start, count);
}

uint32_t jabulghi_case_misses(const jabulghi_case *c, uint32_t count, int32_t *misses) {
    for (uint32_t j = 0; j < 2 * count; j++) misses[j] = (int32_t)c->task.misses[j / 2][j % 2];
    return JABULGHI_OK;
}

uint32_t jabulghi_case_loop(const jabulghi_case *c, uint32_t loop, uint32_t count, double *misses, double own[5]) {
    const struct judge_cave *cave = c->check.cave;
    if (!c->taken || !c->checks || loop == 0 || loop > cave->loop_count) return JABULGHI_COUNT_FULL;
    const struct judge_loop *of = &cave->loops[loop - 1];
    double whole = of->own.east * of->own.north - of->own.both * of->own.both;
    double figures[5] = {of->miss.east, of->miss.north, of->own.north / whole, -of->own.both / whole,
                         of->own.east / whole};
    memcpy(own, figures, sizeof figures);
    return judge_play_loop(cave, c->check.seeds, c->check.first, count, loop - 1,
                           (struct judge_vector *)(void *)misses);
}

/* ---- Texts */

static int end_check(jabulghi_case *c, uint32_t plays, bool all_loops) {
    struct judge_verdict verdict;
    struct judge_told told = {c->check.name, c->check.seeds, all_loops, c->check.played};
    uint64_t asked = c->check.cave->loop_count > 0 ? plays : c->check.plays;
    if (!judge_verdict_of(c->check.cave, c->check.first, c->check.played, (size_t)asked, &verdict))
        return trouble(c->check.name, strerror(ENOMEM));
    judge_words(c->check.cave, &verdict, &told, &c->texts[CASE_WORDS]);
    judge_json(c->check.cave, &verdict, &told, &c->texts[CASE_JSON]);
    judge_plan(c->check.cave, &verdict, &c->texts[CASE_SVG]);
    judge_verdict_free(&verdict);
    return verdict.sound ? DONE : REFUSED;
}

static int end_tolerance(jabulghi_case *c, uint32_t plays) {
    tally kept;
    c->task.runs = plays;
    int status = tally_runs(&c->task, &kept);
    if (status != DONE) return status;
    report(&c->task, &kept, &c->texts[CASE_WORDS]);
    report_json(&c->task, &kept, &c->texts[CASE_JSON]);
    draw(&c->task, &kept, &c->texts[CASE_SVG]);
    for (int j = 0; j < MEASURES; j++) free(kept.of[j].bars);
    return DONE;
}

int jabulghi_case_end(jabulghi_case *c, uint32_t plays, int all_loops) {
    uint32_t all = jabulghi_case_plays(c);
    current = c;
    for (int j = CASE_WORDS; j < CASE_TEXTS; j++) c->texts[j].length = 0;
    if (!c->taken || plays > all || plays < (all < jabulghi_case_least(c) ? all : jabulghi_case_least(c)))
        return TROUBLE;
    int status = c->checks ? end_check(c, plays, all_loops != 0) : end_tolerance(c, plays);
    for (int j = CASE_WORDS; j < CASE_TEXTS; j++) {
        if (c->texts[j].failed) return trouble(c->files[0].name, strerror(ENOMEM));
    }
    return status;
}

const char *jabulghi_case_text(jabulghi_case *c, int which) {
    growing *told = &c->texts[which];
    if (which == CASE_MESSAGES || which == CASE_PLAN) told->length = 0;
    if (which == CASE_MESSAGES) list_messages(c, told);
    if (which == CASE_PLAN && c->taken && c->checks) list_legs(&c->check, told);
    return told->failed ? NULL : told->length == 0 ? "" : told->bytes;
}
