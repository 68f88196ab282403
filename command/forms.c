/* Numbers, seeds and sigmas among the words of the command line. */
#include "command.h"
#include <inttypes.h>
#include <string.h>

/* Reads digits up to the first byte that is none, without a leading zero but 0 itself; the place after them, or NULL. A
 * number above most is large. */
static const char *digits(const char *at, uint64_t most, uint64_t *number, bool *large) {
    const char *start = at;
    *number = 0;
    *large = false;
    for (; *at >= '0' && *at <= '9'; at++) {
        uint64_t digit = (uint64_t)(*at - '0');
        if (at > start && *start == '0') return NULL;
        *large = *large || digit > most || *number > (most - digit) / 10;
        if (!*large) *number = *number * 10 + digit;
    }
    return at == start ? NULL : at;
}

int number_of(const option *given, uint64_t most, uint64_t *number) {
    uint64_t read;
    bool large;
    if (given->value == NULL) return DONE;
    const char *end = digits(given->value, most, &read, &large);
    if (end == NULL || *end != '\0') return wrong(NO_NUMBER, given->name, given->value);
    if (large) return wrong(NUMBER_ABOVE, given->name, (int)(end - given->value), given->value, most);
    *number = read;
    return DONE;
}

/* Reads six numbers where the form has #; all else stands as in the form. Where one is too large, its digits are named.
 */
static bool read_form(const char *form, const char *word, uint32_t numbers[6], const char **large, int *length) {
    size_t read = 0;
    for (*large = NULL; *form != '\0'; form++) {
        uint64_t number;
        bool above;
        const char *start = word;
        if (*form != '#') {
            if (*word++ != *form) return false;
            continue;
        }
        word = digits(word, UINT32_MAX, &number, &above);
        if (word == NULL) return false;
        if (above && *large == NULL) {
            *large = start;
            *length = (int)(word - start);
        }
        numbers[read++] = (uint32_t)number;
    }
    return *word == '\0';
}

int seeds_of(const option *given, uint32_t numbers[6]) {
    const char *large;
    int length;
    if (!read_form("(seeds (a # # #) (b # # #))", given->value, numbers, &large, &length) &&
        !read_form("#,#,#,#,#,#", given->value, numbers, &large, &length))
        return wrong(NO_SEEDS, given->name, given->value);
    return large == NULL ? DONE : wrong(NUMBER_ABOVE, given->name, length, large, (uint64_t)UINT32_MAX);
}

/* Digits, and perhaps a point and at most six more, in millionths; at most 1,000,000. The place after them, or NULL. */
static const char *decimal(const char *at, uint64_t *millionths) {
    bool large;
    at = digits(at, 1000000, millionths, &large);
    if (at == NULL || large) return NULL;
    uint64_t worth = 1000000;
    *millionths *= worth;
    if (*at != '.') return at;
    const char *point = at++;
    for (; worth > 1 && *at >= '0' && *at <= '9'; at++) *millionths += (uint64_t)(*at - '0') * (worth /= 10);
    return at == point + 1 ? NULL : at;
}

/* A decimal and its unit; the place after them, or NULL. Centimetres, metres and a blank before the unit are taken
 * where `more` says so. */
static const char *measure_at(const char *at, bool more, measure *read) {
    static const struct {
        const char *word;
        unit in;
        uint64_t scale;
        bool more;
    } UNITS[] = {{"mm", MILLIMETRES, 1, false}, {"cm", MILLIMETRES, 10, true}, {"m", MILLIMETRES, 1000, true},
                 {"deg", DEGREES, 1, false},    {"steps", STEPS, 1, false},    {"", NO_UNIT, 1, false}};
    at = decimal(at, &read->millionths);
    if (at == NULL) return NULL;
    at += more && *at == ' ';
    size_t j = 0;
    while ((UNITS[j].more && !more) || strncmp(at, UNITS[j].word, strlen(UNITS[j].word)) != 0) j++;
    read->in = UNITS[j].in;
    read->millionths *= UNITS[j].scale;
    return at + strlen(UNITS[j].word);
}

const char *read_measure(const char *at, measure *read) { return measure_at(at, true, read); }

int sigma_of(const option *given, measure *sigma) {
    const char *end = measure_at(given->value, false, sigma);
    return end != NULL && *end == '\0' && sigma->in != NO_UNIT ? DONE : wrong(NO_SIGMA, given->name, given->value);
}

/* A sigma of bearing in steps, of which a turn has 65536; degrees to the nearest. */
static int steps_of(const option *given, const measure *read, uint32_t *steps) {
    uint64_t whole =
        read->in == DEGREES ? (read->millionths * 65536 + 180000000) / 360000000 : read->millionths / 1000000;
    bool exact = read->in == DEGREES || read->millionths % 1000000 == 0;
    if (read->in == MILLIMETRES) return wrong(NO_SIGMAS, given->name, given->value);
    if (!exact || whole > 1000) return wrong(NO_STEPS, given->name, given->value);
    if (whole == 0 && read->millionths > 0) return wrong(TOO_FEW_STEPS, given->name, given->value);
    *steps = (uint32_t)whole;
    return DONE;
}

int sigmas_of(const option *given, uint32_t sigma[2]) {
    measure distance, bearing;
    const char *at = measure_at(given->value, false, &distance);
    at = at != NULL && *at == ',' ? measure_at(at + 1, false, &bearing) : NULL;
    if (at == NULL || *at != '\0' || distance.in == DEGREES || distance.in == STEPS)
        return wrong(NO_SIGMAS, given->name, given->value);
    if (distance.millionths % 1000000 != 0 || distance.millionths / 1000000 > 1000)
        return wrong(NO_WHOLE_MM, given->name, given->value);
    sigma[0] = (uint32_t)(distance.millionths / 1000000);
    return steps_of(given, &bearing, &sigma[1]);
}

/* A decimal of either sign; the place after it, or NULL. */
static const char *signed_decimal(const char *at, double *number) {
    uint64_t millionths = 0;
    bool negative = *at == '-';
    at = decimal(at + (*at == '-' || *at == '+'), &millionths);
    *number = (negative ? -1e-6 : 1e-6) * (double)millionths;
    return at;
}

int miss_of(const option *given, double miss[2]) {
    const char *at = signed_decimal(given->value, &miss[0]);
    at = at != NULL && *at == ',' ? signed_decimal(at + 1, &miss[1]) : NULL;
    return at != NULL && *at == '\0' ? DONE : wrong(NO_MISS, given->name, given->value);
}
