/* What the parts of `jabulghi level` share: a survey in, the strict text that `jabulghi legs` takes out. Nothing of it
 * is proved. */
#ifndef LEVEL_H
#define LEVEL_H

#include "command.h"

#include "../survey/survey.h"

enum { MOST_LISTED = 10 /* legs, loops or names that a note lists */ };

/* Why no text is written; level_notes.c has a sentence for each. */
typedef enum { NO_MEMORY, MANY_LEGS, LONG_LEG, NO_SUCH_LOOP, SEVERAL_LOOPS, NO_LOOP_AT_ALL } reason;

/* A leg of what is written, and whether it is walked from its end to its start. */
typedef struct {
    size_t leg;
    bool backwards;
} step;

/* The legs to be written, in order, and whether they are a loop. */
typedef struct {
    step *steps;
    size_t count;
    bool is_loop;
} walk;

/* The stations of a walk in order and their new names. */
typedef struct {
    size_t station;
    char new_name[NAME_ROOM];
} renamed;

/* A survey on its way to a strict text: which legs close a loop, the walk, its stations, and for each station of the
 * survey its place among them, counted from 1. */
typedef struct {
    const struct survey *s;
    bool *closes;
    size_t loop_count;
    walk walked;
    renamed *stations;
    size_t station_count, *place;
    bool by_case; /* names are told apart by their letters' case */
    reason why;
    size_t bad_leg;
} levelling;

/* level_text.c: a loop of a survey, by its number from 1 on, or its only one, or all legs of a survey that has none
 * where none is needed; false where it has none such, `why` saying so; all legs of a survey, loops or not. The strict
 * text of a walk; a file's name on one line; the walk's shots as a job's lines. A leg's plan in millimetres, and its
 * bearing in steps, of which a turn has 65536. All of it of a text, with what is said; a refusal says why and leaves
 * the text empty. */
bool level_survey(const struct survey *s, uint64_t loop, bool needed, levelling *made);
bool level_whole(const struct survey *s, levelling *made);
void put_legs(const levelling *l, growing *strict);
void put_name(const char *name, growing *strict);
void put_shots(const levelling *l, growing *shots);
int64_t plan_mm(const struct survey_leg *l);
int64_t bearing_steps(const struct survey_leg *l, bool backwards);
void free_levelling(levelling *l);
int level_text(const text *from, survey_fetch *fetch, uint64_t loop, bool needed, growing *strict, growing *said);

/* level_loops.c: the walk to be written; all legs as they stand; the legs of loop n, from 1 on. */
bool find_walk(levelling *l, uint64_t loop);
bool walk_all(levelling *l);
bool find_loop(levelling *l, uint64_t n, walk *w);

/* level_names.c: names for a job. */
bool name_walk(levelling *l);

/* level_notes.c: whether a leg is not level, and how many of a walk are not; its new names; what the reader says, why
 * no text is written, and what was done. */
bool is_steep(const struct survey_leg *leg);
void say_steep(const levelling *l, growing *said);
void say_names(const levelling *l, growing *said);
bool refuse_level(levelling *l, reason why);
void say_messages(const struct survey *s, growing *said);
void say_refusal(levelling *l, growing *said);
void say_notes(const levelling *l, growing *said);

#endif
