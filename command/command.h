/* What the parts of the command `jabulghi` share. The command is plain C over the proved library: nothing in this
 * folder is proved. */
#ifndef COMMAND_H
#define COMMAND_H

#define _POSIX_C_SOURCE 200809L

#include "growing.h"
#include "jabulghi.h"
#include <stdarg.h>
#include <stdbool.h>
#include <sys/types.h>

/* Exit statuses: all went well; the library refused what it was given; wrong usage, or a read or write that failed.
 * ENOUGH is no exit status: nobody reads the output any more, and the command ends as if it were done. UNSOUND is none
 * either: all went well, and the exit status is 1. */
enum { DONE = 0, REFUSED = 1, TROUBLE = 2, ENOUGH = 3, UNSOUND = 4 };

/* The shots that a job takes, and room for a name of it, its end included. */
enum { MOST_SHOTS = 500, NAME_ROOM = 13 };

/* No loop of a survey in particular: its only one. */
#define ANY_LOOP UINT64_MAX

/* A text as it was read, under the name that messages give it. */
typedef struct {
    const char *name;
    uint8_t *bytes;
    size_t length;
} text;

/* What a refusal is about: each has sentences of its own. */
typedef enum { JOB, SURVEY, LISTING, RECORD } subject;

/* A line that was refused, its line feed included, and the text that it stands in; a line that is missing has no bytes.
 */
typedef struct {
    const uint8_t *text, *bytes;
    size_t length, number;
} bad_line;

/* What a user is told besides refusals; sentences.c has the words. */
typedef enum {
    NO_COMMAND,
    NO_SUCH_COMMAND,
    NO_SUCH_OPTION,
    LACKS_VALUE,
    TAKES_NO_VALUE,
    GIVEN_TWICE,
    ONE_FILE,
    NO_FILE,
    NEEDS,
    EITHER,
    NO_NUMBER,
    NUMBER_ABOVE,
    NO_BITS,
    NO_SEEDS,
    NO_SIGMA,
    NO_SIGMAS,
    NO_WHOLE_MM,
    NO_STEPS,
    TOO_FEW_STEPS,
    TOO_MUCH,
    READING,
    SEEDS_DRAWN,
    NO_SHOT,
    STARTS_ELSEWHERE,
    NO_LOOP,
    PART_CLOSES,
    NO_RUN,
    NO_JOBS,
    NO_MISS,
    NO_PART,
    OTHER_PART,
    SAME_RUNS,
    MISSING_RUNS,
    NOT_MERGED,
    LACKS_FILE,
    NO_ERRORS,
    NO_TRIP,
    FEW_PLAYS,
    OTHER_PLAYS,
    MODELLED,
    MODELLED_MORE,
    ALL_ALIKE,
    ON_A_LINE,
    VERDICT,
    NO_BLUNDER,
    BLUNDER_POSSIBLE,
    BLUNDER_LIKELY,
    CANDIDATES,
    NO_CANDIDATE,
    NO_PLACE,
    NOT_LEFT,
    SEVERAL_JOBS,
    TO_ITSELF,
    NOT_READ_AGAIN,
} saying;

/* An option: its name, "--seeds" or "-n", whether it stands alone, and what was given: NULL for nothing, its own name
 * where it stands alone. */
typedef struct {
    const char *name;
    bool alone;
    const char *value;
} option;

/* A sigma among the words: in millionths of its unit. */
typedef enum { NO_UNIT, MILLIMETRES, DEGREES, STEPS } unit;
typedef struct {
    uint64_t millionths;
    unit in;
} measure;

/* The commands: each takes the words after its own name and returns an exit status. */
int list(int count, char **words);
int legs(int count, char **words);
int level(int count, char **words);
int misses(int count, char **words);
int noise(int count, char **words);
int seeds(int count, char **words);
int job(int count, char **words);
int tolerance(int count, char **words);
int check(int count, char **words);

/* help.c: the help on one command, or on all where there is no such command. */
int help_on(const char *command);

/* options.c: takes the options out of the words; the count words that are left, names of files, come first then. */
int read_options(int *count, char **words, option *options, size_t size);

/* forms.c: what options say; each tells what is wrong with it. A number that is not given stays. */
int number_of(const option *given, uint64_t most, uint64_t *number);
int seeds_of(const option *given, uint32_t numbers[6]);
int sigma_of(const option *given, measure *sigma);
int sigmas_of(const option *given, uint32_t sigma[2]);
int miss_of(const option *given, double miss[2]);
const char *read_measure(const char *at, measure *read);

/* seeds.c: six numbers from the system's randomness that the library accepts as seeds, and their line in a job. */
int draw_seeds(uint32_t numbers[6]);
#define SEEDS_LINE "(seeds (a %" PRIu32 " %" PRIu32 " %" PRIu32 ") (b %" PRIu32 " %" PRIu32 " %" PRIu32 "))"

/* sentences.c: says on standard error why a text was refused, and where; "FILE:LINE: sentence (NUMBER)", without a line
 * where the whole text is meant. Says what went wrong with the words of the command line or with the system, or what is
 * worth a note. */
int refuse(const text *refused, subject about, size_t line, uint32_t number);
int refuse_option(const char *name, uint32_t number);
int refuse_leg(const char *file, size_t line, saying why);
const char *sentence(saying what);
int wrong(saying what, ...);
void note(saying what, ...);
int trouble(const char *what, const char *why);

/* legs_cause.c: what is wrong with a line of a survey, asked in this order. */
bool is_other_data_line(const bad_line *line);
bool is_command(const bad_line *line);
bool lacks_data_line(const bad_line *line);
bool has_few_fields(const bad_line *line);
bool has_many_fields(const bad_line *line);
bool has_bad_from(const bad_line *line);
bool has_bad_to(const bad_line *line);
bool has_bad_tape(const bad_line *line);
bool has_long_tape(const bad_line *line);
bool has_large_compass(const bad_line *line);

/* reading.c: reads a whole file, or standard input where the name is "-"; or the one file that the words name, none
 * being standard input. */
int read_text(const char *name, text *read);
int read_named(int count, char **words, text *read);

/* writing.c: writes to standard output, or to the file that was named; says on standard error what went wrong. A text
 * that grew is written to a file of that name, or to the output for NULL, and emptied. */
void write_to(const option *given);
int put(const void *bytes, size_t length);
int put_words(const char *format, ...);
int put_file(const char *name, const void *bytes, size_t length);
int put_grown(const char *name, growing *written);
int finish(int status);

/* Says something on standard error: writing.c, or the program that the sources are compiled into. */
void put_error(const char *format, ...);
void put_error_values(const char *format, va_list values);

/* progress.c: a line on standard error, where that is a terminal and what is counted goes elsewhere, once a run takes
 * longer than a second. */
void progress_start(const char *counted, bool elsewhere);
void progress_show(uint64_t done, uint64_t all);
void progress_end(uint64_t done, uint64_t all);

/* threads.c: pieces of work, so many at a time, by so many threads; the number of the first that failed. */
typedef struct {
    uint32_t (*run)(void *context, uint64_t start, size_t count);
    void *context;
    uint64_t pieces, stretch, threads;
} labour;
uint32_t by_threads(const labour *work, const char *counted);

/* system.c: what Linux and Windows do in different ways. Names are UTF-8. */
void system_start(void);
bool system_terminal(int file);
int system_open(const char *name, int flags);
unsigned system_mode(const char *name);
bool system_writable(const char *name);
int system_rename(const char *from, const char *to);
int system_remove(const char *name);
ssize_t system_write(int file, const void *bytes, size_t length);
double system_seconds(void);
uint64_t system_processors(void);
int system_random(uint32_t numbers[6]);
extern const char SYSTEM_END_OF_INPUT[];

#endif
