/* `jabulghi check` and `jabulghi tolerance` for a program: words of the command line and files in memory in, the
 * command's own texts out, step by step. It reads no file and prints nothing. Not proved, but for the noise that it
 * plays with.
 *
 * Calls are made one at a time, but for jabulghi_case_play: several threads may play different plays of a case, or of
 * several cases. */
#ifndef BINDINGS_JUDGE_H
#define BINDINGS_JUDGE_H

#include <stddef.h>
#include <stdint.h>

typedef struct jabulghi_case jabulghi_case;

/* What can be read of a case; texts end with a NUL. MESSAGES and PLAN are JSON: [{"file", "line", "option", "text"},
 * ..] and [{"file", "line", "from", "to", "ends": [east, north, east, north], "loops": [..]}, ..]. MISSING has the
 * names of files that were looked for in vain, FOUND a pair of names for each that was found under another, a line
 * each. */
enum { CASE_SAID, CASE_MESSAGES, CASE_MISSING, CASE_FOUND, CASE_WORDS, CASE_JSON, CASE_SVG, CASE_PLAN, CASE_TEXTS };

/* A case of `check` or `tolerance`, its options (each word ended by a NUL) and six random numbers for seeds that no
 * option gives; NULL where memory has run out, as for all pointers here. */
jabulghi_case *jabulghi_case_new(const char *command, const char *words, size_t length, const uint32_t *random);
void jabulghi_case_free(jabulghi_case *c);

/* Adds a file; the first is the survey. 0 where memory has run out. With `loose` an included file is found by the last
 * part of its name, too, in small or capital letters, where no file has its whole name. */
int jabulghi_case_file(jabulghi_case *c, const char *name, const uint8_t *bytes, size_t length);
void jabulghi_case_loose(jabulghi_case *c);

/* Reads the survey: the command's exit status, 0 where it is taken. It can be called again, with more files. */
int jabulghi_case_begin(jabulghi_case *c);

/* The plays that are asked for, 0 where there is nothing to play, and the fewest that a verdict is made of; plays some
 * of them: the library's number, 0 for success. */
uint32_t jabulghi_case_plays(const jabulghi_case *c);
uint32_t jabulghi_case_least(const jabulghi_case *c);
uint32_t jabulghi_case_play(jabulghi_case *c, uint32_t start, uint32_t count);

/* Makes the texts from the first plays, all of which were played, whether every loop is listed; the command's exit
 * status. It can be called again. The plan can be read once a check is taken. */
int jabulghi_case_end(jabulghi_case *c, uint32_t plays, int all_loops);
const char *jabulghi_case_text(jabulghi_case *c, int which);

/* For a tolerance the misses of its plays in mm, two for each. For a check the misses of one loop, from 1 on, in its
 * first plays: east and north in m, then its own miss and its covariance (east, both, north). The library's number. */
uint32_t jabulghi_case_misses(const jabulghi_case *c, uint32_t count, int32_t *misses);
uint32_t jabulghi_case_loop(const jabulghi_case *c, uint32_t loop, uint32_t count, double *misses, double own[5]);

#endif
