/* What the parts of `jabulghi list` share: shots that are played, as listings and as Survex. */
#ifndef LIST_H
#define LIST_H

#include "traverse.h"

/* The shots of a survey, as many as there are; the seeds that were given, the pairs that are left out before the first
 * shot of all, and the first that is played; then the listings of their jobs, one after another, and the rows of them
 * all. */
typedef struct {
    survey s;
    uint32_t seeds[6];
    uint64_t before;
    size_t shots, start;
    growing listings;
    shot *rows;
    size_t count, room;
} playing;

/* playing.c: plays the shots from `start` on, as many jobs as they need. */
int play(playing *p);

/* svx.c: what was played as Survex: the head that says how; the shots of a job or a listing, or a strict survey with
 * its comments. svx_survey.c: an ordinary survey, whose readings alone change. REFUSED where Survex cannot say it. */
void put_head(const playing *p, growing *to);
int put_svx(const playing *p, growing *to);
int put_survey(const playing *p, growing *to);

#endif
