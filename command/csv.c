/* Each run's whole miss, a row a run. */
#include "tolerance.h"
#include <inttypes.h>

/* Rows are written so many at once. */
#define ROWS 4096

int put_csv(const task *t) {
    growing rows = {NULL, 0, 0, false};
    int status = put_words("run,east,north\n");
    for (uint64_t start = 0; status == DONE && start < t->runs; start += ROWS) {
        for (uint64_t j = start; j < t->runs && j < start + ROWS; j++)
            add(&rows, "%" PRIu64 ",%" PRId64 ",%" PRId64 "\n", t->first + j, t->misses[j][0], t->misses[j][1]);
        status = put_grown(NULL, &rows);
    }
    return status;
}
