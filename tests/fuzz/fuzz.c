/* Any bytes as the words and the texts of the command `jabulghi`, for libFuzzer: a survey, a job, a listing or a part
 * of a merge, each with the options that its first byte chooses. Nothing may read or write beyond its memory, overflow
 * or divide by zero; tests/fuzz/run says how it is run. */
#include "../../command/tolerance.h"
#include <stdio.h>
#include <stdlib.h>
#include <string.h>

/* The text as a part of a merge, which a NUL ends. */
static void as_part(const uint8_t *bytes, size_t length) {
    part p = {0};
    char *ended = calloc(length + 1, 1);
    memcpy(ended, bytes, length);
    read_part(ended, length, &p);
    free(p.job.bytes);
    for (int j = 0; j < MEASURES; j++) free(p.runs.of[j].bars);
    free(ended);
}

/* The text as the word of each option that has a form. */
static void as_word(const uint8_t *bytes, size_t length) {
    uint32_t numbers[6], sigma[2];
    uint64_t number;
    double miss[2];
    measure read;
    char *word = calloc(length + 1, 1);
    memcpy(word, bytes, length);
    option given = {"--word", false, word};
    number_of(&given, 1000, &number);
    seeds_of(&given, numbers);
    sigma_of(&given, &read);
    sigmas_of(&given, sigma);
    miss_of(&given, miss);
    free(word);
}

/* The text as a survey, a job or a listing: whatever is accepted is played, and every kind of page is written of it. */
static void as_loop(const uint8_t *bytes, size_t length, const char *name) {
    static task t;
    tally kept;
    growing written = {NULL, 0, 0, false};
    uint8_t *copy = malloc(length + 1);
    memcpy(copy, bytes, length);
    memset(&t, 0, sizeof t);
    t.runs = 20;
    t.jobs = 1;
    if (take_survey((text){name, copy, length}, (wanted_loop){0}, &t.s) == DONE) {
        if (t.s.about != JOB)
            t.s.seeds[0] = t.s.seeds[1] = t.s.seeds[2] = t.s.seeds[3] = t.s.seeds[4] = t.s.seeds[5] = 2901327257,
            t.s.sigma[0] = 4, t.s.sigma[1] = 91;
        if (prepare(&t, "--first") == DONE && play_all(&t) == DONE && tally_of(&t, 1, &kept) == DONE) {
            report(&t, &kept, &written);
            report_json(&t, &kept, &written);
            draw(&t, &kept, &written);
            for (int j = 0; j < MEASURES; j++) free(kept.of[j].bars);
        }
    }
    free(written.bytes);
    free(t.misses);
    free(t.job);
    if (t.s.about != JOB) free(t.s.shots);
    free(copy);
}

int LLVMFuzzerTestOneInput(const uint8_t *bytes, size_t length);
int LLVMFuzzerTestOneInput(const uint8_t *bytes, size_t length) {
    static const char *const NAMES[] = {"a.svx", "a.job", "a.listing", "standard input"};
    if (length == 0) return 0;
    unsigned kind = bytes[0] % 8;
    if (kind < 4) as_loop(bytes + 1, length - 1, NAMES[kind]);
    else if (kind < 6) as_part(bytes + 1, length - 1);
    else as_word(bytes + 1, length - 1);
    return 0;
}
