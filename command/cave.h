/* A survey as the command reads it, with its files. */
#ifndef CAVE_H
#define CAVE_H

#include "traverse.h"

#include "../survey/survey.h"

/* cave.c: reads a survey and the files that it includes; what is worth a note, and why it is refused, goes to standard
 * error. TROUBLE where it is refused. The shots of a job or a listing as a survey. */
int read_cave(const text *source, struct survey **read);
int cave_of_shots(const survey *from, struct survey **read);

/* How a survey of that name finds the files that it includes; what the reader says of a survey, on standard error. */
survey_fetch *fetch_of(const text *source);
void tell_messages(const struct survey *s);

#endif
