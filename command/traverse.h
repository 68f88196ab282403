/* A run of shots, and where it came from: a survey, a job or a listing. */
#ifndef TRAVERSE_H
#define TRAVERSE_H

#include "command.h"

struct survey; /* of survey/survey.h */

typedef struct {
    char from[NAME_ROOM], to[NAME_ROOM];
    uint32_t distance, bearing;
} shot;
typedef struct {
    size_t count;
    shot shots[MOST_SHOTS];
} traverse;

/* Where a shot came from: its stations by the names that the user gave them, its file and line, and how far it rises,
 * in metres. */
typedef struct {
    const char *from, *to, *file;
    size_t line;
    double rise;
} origin;

/* A text that was accepted: what it is, its shots as a job's lines, the seeds and sigmas that a job has besides, the
 * errors of stations (mm) and of the clino (degrees) that were given, and where the shots of an ordinary
 * survey came from. */
typedef struct {
    text source;
    subject about;
    uint8_t *shots;
    size_t length;
    uint32_t seeds[6], sigma[2];
    double station, clino;
    origin *origins;
    size_t origin_count;
    struct survey *read; /* what an ordinary survey was read to */
} survey;

/* Which loop of an ordinary survey is meant, by its number or ANY_LOOP for its only one; whether there has to be one;
 * whether new names are told. */
typedef struct {
    uint64_t number;
    bool needed, renamed;
} wanted_loop;

/* traverse.c: the shots of a text that the library accepted, a listing's rows or a job's lines. */
void read_shots(const uint8_t *bytes, size_t length, bool listed, traverse *read);

/* loop.c: whether the shots follow each other and end where they start; where not, says why on standard error, and
 * names the longest part that closes. */
bool is_loop(const char *name, const traverse *t);

/* survey.c: what a text is, by its name or its first line; takes a text for what it is, a job, a listing or a survey,
 * strict or ordinary; takes all legs of a survey, loops or not and however many; where a shot of it came from, counted
 * from 0; the line of the text that a line of its job stands for; refuses that; a strict survey's legs as shot lines;
 * whether a line of a survey has more than blanks and a comment; frees what was taken, but not the source. */
subject kind_of(const text *t);
int take_survey(text source, wanted_loop wanted, survey *taken);
int take_whole(text source, bool new_names, survey *taken);
bool says_something(const uint8_t *at, const uint8_t *end);
origin origin_of(const survey *s, const traverse *t, size_t leg);
size_t line_in_source(const survey *s, size_t line);
int refuse_shot(const survey *s, size_t line, uint32_t number);
int shots_of(const text *from, uint8_t **shots, size_t *length);
void free_shots(survey *s);

/* job.c: the seeds and sigmas of the options, or the survey's own, or seeds that are drawn; for a job, which has no
 * place for errors of stations and clino. How many shots there are. Makes the seeds those that are so many pairs, so
 * many playings of all shots and so many shots on; the pairs before the first shot. The text of the job, or NULL. */
int settings_of(const option *seeds, const option *sigma, const char *command, survey *s);
int job_settings_of(const option *seeds, const option *sigma, const char *command, survey *s);
size_t count_shots(const survey *s);
int skip_pairs(survey *s, uint64_t skip, uint64_t run, size_t from, uint64_t *before);
uint8_t *job_text(const survey *s, const uint32_t sigma[2], size_t *length);

#endif
