/* Plays a job's runs. */
#include "tolerance.h"
#include <errno.h>
#include <stdlib.h>
#include <string.h>

/* Runs that a thread takes at a time. */
#define STRETCH 4096

uint32_t play_some_runs(void *context, uint64_t start, size_t runs) {
    const task *t = context;
    uint32_t line;
    uint32_t number = jabulghi_play(t->job, t->length, t->first + start, t->misses + start, runs, &line);
    return number == JABULGHI_OK ? add_more(t, start, runs) : number;
}

int room_for_runs(task *t) {
    t->misses = malloc((size_t)t->runs * sizeof t->misses[0]);
    return t->misses == NULL ? trouble("--runs", strerror(ENOMEM)) : DONE;
}

int play_all(task *t) {
    int status = room_for_runs(t);
    if (status != DONE) return status;
    labour work = {play_some_runs, t, t->runs, STRETCH, t->jobs};
    uint32_t number = by_threads(&work, "runs");
    return number == JABULGHI_OK ? DONE : refuse_option("--first", number);
}
