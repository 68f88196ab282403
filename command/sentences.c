/* All that a user is told: one table from the numbers of jabulghi.h to sentences, and one of what is said besides. */
#include "command.h"
#include <inttypes.h>
#include <stdlib.h>
#include <string.h>

static bool is_missing(const bad_line *line) { return line->length == 0; }
static bool is_first(const bad_line *line) { return line->number == 1; }
static bool is_second(const bad_line *line) { return line->number == 2; }
static bool is_line_502(const bad_line *line) { return line->number == 502; }
static bool lacks_line_feed(const bad_line *line) { return line->length > 0 && line->bytes[line->length - 1] != '\n'; }
static bool ends_in_crlf(const bad_line *line) {
    return line->length > 1 && memcmp(line->bytes + line->length - 2, "\r\n", 2) == 0;
}
static bool above(const bad_line *line, size_t blanks, uint64_t most);
static bool is_large_sigma(const bad_line *line) { return line->number == 2 && above(line, 1, 1000); }
static bool has_large_distance(const bad_line *line) { return above(line, 3, 1000000); }
static bool has_large_listed(const bad_line *line) { return above(line, 2, 1008242); }
static bool has_large_high(const bad_line *line) { return above(line, 3, 1008242); }

#define CRLF "line ends with a carriage return and a line feed, not with a line feed alone"
#define NO_LINE_FEED "line lacks its line feed"
#define OTHER_STATION "shot does not start at the last station"
#define UNFIT(stream) "seed of stream " stream " below its minimum of 2, 8 or 16"

/* For a subject and number the first row whose test holds of the bad line, or that has none. Scripts read a row a line.
 */
/* clang-format off */
static const struct { subject about; uint32_t number; bool (*holds)(const bad_line *line); const char *sentence; } SENTENCES[] = {
    {JOB, JABULGHI_JOB_TOO_LONG, NULL, "job over 60,000 bytes"},
    {JOB, JABULGHI_NO_FORM, ends_in_crlf, CRLF},
    {JOB, JABULGHI_NO_FORM, lacks_line_feed, NO_LINE_FEED},
    {JOB, JABULGHI_NO_FORM, NULL, "line is none of the three forms"},
    {JOB, JABULGHI_NUMBER_TOO_LARGE, is_first, "seed above 4,294,967,295"},
    {JOB, JABULGHI_NUMBER_TOO_LARGE, is_large_sigma, "sigma of distance above 1000 mm"},
    {JOB, JABULGHI_NUMBER_TOO_LARGE, is_second, "sigma of bearing above 1000 steps"},
    {JOB, JABULGHI_NUMBER_TOO_LARGE, has_large_distance, "distance above 1,000,000"},
    {JOB, JABULGHI_NUMBER_TOO_LARGE, NULL, "bearing above 65535"},
    {JOB, JABULGHI_WRONG_PLACE, is_missing, "text ends before line 2"},
    {JOB, JABULGHI_WRONG_PLACE, NULL, "form in the wrong place"},
    {JOB, JABULGHI_TOO_MANY_SHOTS, NULL, "501st shot"},
    {JOB, JABULGHI_UNFIT_STREAM_A, NULL, UNFIT("a")},
    {JOB, JABULGHI_UNFIT_STREAM_B, NULL, UNFIT("b")},
    {JOB, JABULGHI_OTHER_STATION, NULL, OTHER_STATION},

    {SURVEY, JABULGHI_TOO_MANY_SHOTS, NULL, "501st leg"},
    {SURVEY, JABULGHI_OTHER_STATION, NULL, OTHER_STATION},
    {SURVEY, JABULGHI_NO_LEG, is_missing, "no data line"},
    {SURVEY, JABULGHI_NO_LEG, ends_in_crlf, CRLF},
    {SURVEY, JABULGHI_NO_LEG, lacks_line_feed, NO_LINE_FEED},
    {SURVEY, JABULGHI_NO_LEG, is_other_data_line, "data line is not '*data normal from to tape compass clino'; jabulghi level takes other orders"},
    {SURVEY, JABULGHI_NO_LEG, is_command, "commands are not taken here; jabulghi level takes ordinary Survex"},
    {SURVEY, JABULGHI_NO_LEG, lacks_data_line, "leg before the data line"},
    {SURVEY, JABULGHI_NO_LEG, has_few_fields, "leg has fewer than five fields"},
    {SURVEY, JABULGHI_NO_LEG, has_many_fields, "leg has more than five fields"},
    {SURVEY, JABULGHI_NO_LEG, has_bad_from, "from is no name of 1 to 12 letters or digits; jabulghi level gives new names"},
    {SURVEY, JABULGHI_NO_LEG, has_bad_to, "to is no name of 1 to 12 letters or digits; jabulghi level gives new names"},
    {SURVEY, JABULGHI_NO_LEG, has_bad_tape, "tape is not 1 to 4 digits, then perhaps a point and 1 to 3 decimals"},
    {SURVEY, JABULGHI_NO_LEG, NULL, "compass is not 1 to 4 digits, then perhaps a point and 1 or 2 decimals"},
    {SURVEY, JABULGHI_LEG_OUT_OF_RANGE, ends_in_crlf, CRLF},
    {SURVEY, JABULGHI_LEG_OUT_OF_RANGE, has_long_tape, "tape above 1000"},
    {SURVEY, JABULGHI_LEG_OUT_OF_RANGE, has_large_compass, "compass above 360"},
    {SURVEY, JABULGHI_LEG_OUT_OF_RANGE, NULL, "clino is not the single digit 0; jabulghi level takes other forms, and steep legs as their plan"},

    {LISTING, JABULGHI_NO_FORM, is_missing, "line is missing"},
    {LISTING, JABULGHI_NO_FORM, ends_in_crlf, CRLF},
    {LISTING, JABULGHI_NO_FORM, lacks_line_feed, NO_LINE_FEED},
    {LISTING, JABULGHI_NO_FORM, NULL, "line is unlike the listing's, or has a false count"},
    {LISTING, JABULGHI_SHOT_TOO_LARGE, is_line_502, "501st shot"},
    {LISTING, JABULGHI_SHOT_TOO_LARGE, has_large_listed, "distance above 1,008,242"},
    {LISTING, JABULGHI_SHOT_TOO_LARGE, has_large_high, "distance above 1,008,242"},
    {LISTING, JABULGHI_SHOT_TOO_LARGE, NULL, "step above 65535"},
    {LISTING, JABULGHI_LOW_ABOVE_HIGH, NULL, "low above high"},
    {LISTING, JABULGHI_OTHER_STATION, NULL, OTHER_STATION},
    {LISTING, JABULGHI_NUMBER_TOO_LARGE, NULL, "distance above 1,000,000"},

    {RECORD, JABULGHI_UNFIT_STREAM_A, NULL, UNFIT("a")},
    {RECORD, JABULGHI_UNFIT_STREAM_B, NULL, UNFIT("b")},
    {RECORD, JABULGHI_ODD_LENGTH, NULL, "must be even"},
    {RECORD, JABULGHI_COUNT_FULL, NULL, "the count would pass 2^64 - 1"},
};
/* clang-format on */

#define HELP "; see jabulghi --help"

/* What is said besides refusals; a name or a number stands where a % is. */
/* clang-format off */
static const char *const SAYINGS[] = {
    [NO_COMMAND] = "no command" HELP,
    [NO_SUCH_COMMAND] = "%s: no such command" HELP,
    [NO_SUCH_OPTION] = "%s: no such option" HELP,
    [LACKS_VALUE] = "%s: lacks its value" HELP,
    [TAKES_NO_VALUE] = "%s: takes no value" HELP,
    [GIVEN_TWICE] = "%s: given twice",
    [ONE_FILE] = "%s: one FILE at most" HELP,
    [NO_FILE] = "%s: %s takes no FILE" HELP,
    [NEEDS] = "%s: needs %s" HELP,
    [EITHER] = "either %s or %s" HELP,
    [NO_NUMBER] = "%s: '%s' is no whole number",
    [NUMBER_ABOVE] = "%s: %.*s is above %" PRIu64,
    [NO_BITS] = "%s: '%s' is neither 16 nor 18",
    [NO_SEEDS] = "%s: '%s' is neither (seeds (a n n n) (b n n n)) nor n,n,n,n,n,n",
    [NO_SIGMA] = "%s: '%s' is no sigma such as 4mm, 0.5deg or 91steps, at most 1000000",
    [NO_SIGMAS] = "%s: '%s' is no pair of sigmas such as 4mm,0.5deg or 4,91 (millimetres, steps)",
    [NO_WHOLE_MM] = "%s: '%s': a sigma of distance is whole millimetres, 0 to 1000",
    [NO_STEPS] = "%s: '%s': a sigma of bearing is whole steps, 0 to 1000, or degrees, up to 5.49",
    [TOO_FEW_STEPS] = "%s: '%s': a sigma of bearing above 0 is at least half a step, 0.0028 degrees",
    [TOO_MUCH] = "%s: more than 64 MiB",
    [READING] = "reading standard input up to %s",
    [SEEDS_DRAWN] = "drawn " SEEDS_LINE,
    [NO_SHOT] = "%s: no shot",
    [STARTS_ELSEWHERE] = "%s: shot %zu starts at %s, the one before ends at %s: no loop",
    [NO_LOOP] = "%s: starts at %s, ends at %s: no loop",
    [PART_CLOSES] = "%s: starts at %s, ends at %s: no loop; shots %zu to %zu are one, from %s on",
    [NO_RUN] = "--runs: at least 1 run",
    [NO_JOBS] = "--jobs: at least 1 job",
    [NO_MISS] = "%s: '%s' is no miss such as -35,22 (east and north in millimetres, up to 1000000)",
    [NO_PART] = "%s: no part that --json wrote",
    [OTHER_PART] = "%s: a part of another loop, with other seeds or sigmas, or with another miss than %s",
    [SAME_RUNS] = "%s: has runs that %s has too",
    [MISSING_RUNS] = "--merge: no part has the runs %" PRIu64 " to %" PRIu64,
    [NOT_MERGED] = "%s: not with --merge",
    [LACKS_FILE] = "%s: names no FILE" HELP,
    [NO_ERRORS] = "%s: '%s' is neither a list such as tape=10mm,compass=1deg,clino=1deg,station=50mm,fix=1m, each once, nor two such as 4mm,0.5deg",
    [NO_TRIP] = "%s: '%s' is no angle such as 0.5deg, at most 90 degrees",
    [FEW_PLAYS] = "%s: at least %d plays",
    [OTHER_PLAYS] = "%s: plays of another cave, or with other seeds or errors",
    [MODELLED] = "modelled: independent Gaussian errors of each leg's distance and bearing; not modelled: calibration, stations, blunders",
    [MODELLED_MORE] = "modelled: independent Gaussian errors of each leg's distance, bearing, slope and stations; not modelled: calibration, blunders",
    [ALL_ALIKE] = "All runs miss alike: there is no noise to judge a miss by.",
    [ON_A_LINE] = "All runs miss along one line: a miss beside it is beyond them all.",
    [VERDICT] = "A sound survey of this kind misses by as much or more in %s %% of runs (by the ellipse of the runs; %s %% by distance alone).",
    [NO_BLUNDER] = "That is no sign of a blunder.",
    [BLUNDER_POSSIBLE] = "That is below 5 %: a blunder is possible. One sound loop in 20 gets this, too; or your sigmas are too small.",
    [BLUNDER_LIKELY] = "That is below 0.1 %: a blunder is likely. Or your sigmas are too small.",
    [CANDIDATES] = "One leg alone, so corrected, would bring the miss within the noise (in brackets: sound surveys that miss by as much as then remains). What could be, not what is:",
    [NO_CANDIDATE] = "No correction of one leg alone would bring the miss within the noise.",
    [NO_PLACE] = "%s: '%s': a job has no place for errors of stations and clino",
    [NOT_LEFT] = "%s: no shot starts at %s",
    [SEVERAL_JOBS] = "%s: %zu legs are %zu jobs of up to 500, each from where the one before ended in the stream",
    [TO_ITSELF] = "leg from a station to itself, which Survex does not take",
    [NOT_READ_AGAIN] = "leg cannot be written so that Survex reads it as it was played",
};
/* clang-format on */

/* Whether the number that follows so many blanks is above a limit. */
static bool above(const bad_line *line, size_t blanks, uint64_t most) {
    uint64_t number = 0;
    size_t at = 0, passed = 0;
    while (at < line->length && passed < blanks) passed += line->bytes[at++] == ' ';
    for (; at < line->length && number <= most && line->bytes[at] >= '0' && line->bytes[at] <= '9'; at++)
        number = number * 10 + (uint64_t)(line->bytes[at] - '0');
    return number > most;
}

static bad_line line_of(const text *from, size_t number) {
    const uint8_t *at = from->bytes, *end = at + from->length;
    for (size_t before = 1; before < number && at < end; before++) {
        const uint8_t *feed = memchr(at, '\n', (size_t)(end - at));
        at = feed == NULL ? end : feed + 1;
    }
    const uint8_t *feed = at < end ? memchr(at, '\n', (size_t)(end - at)) : NULL;
    return (bad_line){from->bytes, at, (size_t)((feed == NULL ? end : feed + 1) - at), number};
}

static const char *sentence_of(subject about, uint32_t number, const bad_line *line) {
    for (size_t j = 0; j < sizeof SENTENCES / sizeof SENTENCES[0]; j++) {
        bool meant = SENTENCES[j].about == about && SENTENCES[j].number == number;
        if (meant && (SENTENCES[j].holds == NULL || SENTENCES[j].holds(line))) return SENTENCES[j].sentence;
    }
    return "refused";
}

int refuse(const text *refused, subject about, size_t line, uint32_t number) {
    bad_line bad = line_of(refused, line);
    const char *sentence = sentence_of(about, number, &bad);
    if (line == 0) {
        put_error("%s: %s (%" PRIu32 ")\n", refused->name, sentence, number);
    } else {
        put_error("%s:%zu: %s (%" PRIu32 ")\n", refused->name, line, sentence, number);
    }
    return REFUSED;
}

int refuse_leg(const char *file, size_t line, saying why) {
    put_error("%s:%zu: %s\n", file, line, SAYINGS[why]);
    return REFUSED;
}

int refuse_option(const char *name, uint32_t number) {
    static uint8_t nothing;
    text named = {name, &nothing, 0};
    return refuse(&named, RECORD, 0, number);
}

const char *sentence(saying what) { return SAYINGS[what]; }

/* "jabulghi: " and a sentence, its places filled in. */
static void tell(saying what, va_list values) {
    put_error("jabulghi: ");
    put_error_values(SAYINGS[what], values);
    put_error("\n");
}

int wrong(saying what, ...) {
    va_list values;
    va_start(values, what);
    tell(what, values);
    va_end(values);
    return TROUBLE;
}

void note(saying what, ...) {
    va_list values;
    va_start(values, what);
    tell(what, values);
    va_end(values);
}

int trouble(const char *what, const char *why) {
    put_error("jabulghi: %s: %s\n", what, why);
    return TROUBLE;
}
