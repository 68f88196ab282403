/* Readings that say another leg than those of the book. */
#ifndef SVX_H
#define SVX_H

#include "list.h"

#include "../survey/survey.h"

/* What stands in the place of a word of a file. */
typedef struct {
    size_t file, at, length, leg;
    char text[48];
} edit;

/* All edits of a survey, in the order of reading; and the last count that was written, which the next leg starts with.
 */
typedef struct {
    edit *all;
    size_t count, room;
    struct survey_reading counted;
} edits;

/* svx_readings.c: adds what is written for a leg that is played; false where no decimals are enough, or memory has run
 * out. */
bool add_edits(const struct survey *s, size_t leg, const shot *played, edits *to);

#endif
