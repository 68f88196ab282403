/* How far a long run is, on standard error. */
#include "command.h"
#include <inttypes.h>
#include <stdio.h>
#include <unistd.h>

static bool wanted, shown;
static double next;
static const char *what;

/* Where what is counted is written as it comes, a terminal on standard output is full of it. */
void progress_start(const char *counted, bool elsewhere) {
    what = counted;
    wanted = system_terminal(STDERR_FILENO) && (elsewhere || !system_terminal(STDOUT_FILENO));
    next = system_seconds() + 1;
}

static void show(uint64_t done, uint64_t all) {
    fprintf(stderr, "\rjabulghi: %" PRIu64 " of %" PRIu64 " %s (%.0f %%)", done, all, what,
            100.0 * (double)done / (double)all);
    shown = true;
}

/* Once a second from the first second on. */
void progress_show(uint64_t done, uint64_t all) {
    if (!wanted || system_seconds() < next) return;
    show(done, all);
    next = system_seconds() + 1;
}

void progress_end(uint64_t done, uint64_t all) {
    if (!shown) return;
    show(done, all);
    fprintf(stderr, "\n");
}
