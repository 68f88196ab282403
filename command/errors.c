/* Standard deviations among the words of the command line, each with its name. */
#include "check.h"

#include "../survey/mathematics.h"
#include <string.h>

/* The names, what each is in, and the most that is taken of it, in metres or degrees. */
static const struct {
    const char *name;
    enum judge_error error;
    bool length;
    double most;
} NAMES[] = {
    {"tape", JUDGE_TAPE, true, 100},       {"compass", JUDGE_COMPASS, false, 90}, {"clino", JUDGE_CLINO, false, 90},
    {"station", JUDGE_STATION, true, 100}, {"fix", JUDGE_POINT, true, 10000},
};

/* A measure in metres or degrees; false where it has the other unit, or none. */
static bool value_of(const measure *m, bool length, double *value) {
    double number = (double)m->millionths / 1e6;
    *value = length ? number / 1000 : m->in == STEPS ? number * 360 / 65536 : number;
    return length ? m->in == MILLIMETRES : m->in == DEGREES || m->in == STEPS;
}

/* One name with its value; the place after it, or NULL. */
static const char *read_error(const char *at, struct judge_sigmas *sigmas) {
    measure read;
    double value;
    for (size_t j = 0; j < sizeof NAMES / sizeof NAMES[0]; j++) {
        size_t length = strlen(NAMES[j].name);
        if (strncmp(at, NAMES[j].name, length) != 0 || at[length] != '=') continue;
        at = read_measure(at + length + 1, &read);
        if (at == NULL || !value_of(&read, NAMES[j].length, &value) || value > NAMES[j].most) return NULL;
        sigmas->of[NAMES[j].error] = value;
        sigmas->given[NAMES[j].error] = true;
        return at;
    }
    return NULL;
}

/* Tape and compass alone: a number without a unit is millimetres, or steps. */
static bool read_pair(const char *at, struct judge_sigmas *sigmas) {
    measure tape, compass;
    at = read_measure(at, &tape);
    at = at != NULL && *at == ',' ? read_measure(at + 1, &compass) : NULL;
    if (at == NULL || *at != '\0') return false;
    if (tape.in == NO_UNIT) tape.in = MILLIMETRES;
    if (compass.in == NO_UNIT) compass.in = STEPS;
    bool good = value_of(&tape, true, &sigmas->of[JUDGE_TAPE]) && value_of(&compass, false, &sigmas->of[JUDGE_COMPASS]);
    sigmas->given[JUDGE_TAPE] = sigmas->given[JUDGE_COMPASS] = true;
    return good && sigmas->of[JUDGE_TAPE] <= NAMES[0].most && sigmas->of[JUDGE_COMPASS] <= NAMES[1].most;
}

/* Names with their values, each once. */
static bool read_list(const char *at, struct judge_sigmas *sigmas) {
    struct judge_sigmas read = {{0}, {false}, NULL};
    for (;;) {
        struct judge_sigmas one = {{0}, {false}, NULL};
        at = read_error(at, &one);
        if (at == NULL || (*at != ',' && *at != '\0')) return false;
        for (int j = 0; j < JUDGE_ERRORS; j++) {
            if (one.given[j] && read.given[j]) return false;
            if (one.given[j]) sigmas->of[j] = one.of[j], sigmas->given[j] = read.given[j] = true;
        }
        if (*at++ == '\0') return true;
    }
}

int errors_of(const option *given, struct judge_sigmas *sigmas) {
    if (given->value == NULL) return DONE;
    sigmas->from = given->name;
    bool good = strchr(given->value, '=') == NULL ? read_pair(given->value, sigmas) : read_list(given->value, sigmas);
    return good ? DONE : wrong(NO_ERRORS, given->name, given->value);
}

int trip_of(const option *given, struct judge_sigmas *sigmas) {
    measure read;
    if (given->value == NULL) return DONE;
    const char *end = read_measure(given->value, &read);
    bool good =
        end != NULL && *end == '\0' && value_of(&read, false, &sigmas->of[JUDGE_TRIP]) && sigmas->of[JUDGE_TRIP] <= 90;
    sigmas->given[JUDGE_TRIP] = true;
    return good ? DONE : wrong(NO_TRIP, given->name, given->value);
}

/* Whole millimetres, and the nearest steps, as a job has them. */
static int whole_errors(const option *given, const struct judge_sigmas *read, survey *s) {
    double tape = read->of[JUDGE_TAPE] * 1000, steps = read->of[JUDGE_COMPASS] * 65536 / 360;
    if (read->given[JUDGE_TAPE] && (fabs(tape - round(tape)) > 1e-9 || tape > 1000))
        return wrong(NO_WHOLE_MM, given->name, given->value);
    if (read->given[JUDGE_COMPASS] && steps >= 1000.5) return wrong(NO_STEPS, given->name, given->value);
    if (read->given[JUDGE_COMPASS] && steps > 0 && steps < 0.5) return wrong(TOO_FEW_STEPS, given->name, given->value);
    if (read->given[JUDGE_TAPE]) s->sigma[0] = (uint32_t)round(tape);
    if (read->given[JUDGE_COMPASS]) s->sigma[1] = (uint32_t)floor(steps + 0.5);
    s->station = read->of[JUDGE_STATION] * 1000;
    s->clino = read->of[JUDGE_CLINO];
    return DONE;
}

int shot_errors_of(const option *given, survey *s) {
    struct judge_sigmas read = {{0}, {false}, NULL};
    if (strchr(given->value, '=') == NULL) return sigmas_of(given, s->sigma);
    if (!read_list(given->value, &read) || read.given[JUDGE_POINT]) return wrong(NO_ERRORS, given->name, given->value);
    if (s->about != JOB && (!read.given[JUDGE_TAPE] || !read.given[JUDGE_COMPASS]))
        return wrong(NEEDS, given->name, "tape and compass");
    return whole_errors(given, &read, s);
}
