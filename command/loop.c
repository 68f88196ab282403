/* Whether a run of shots is a loop. */
#include "traverse.h"
#include <string.h>

/* The first shot that does not start where the one before ended, or the count of shots. */
static size_t off_shot(const traverse *t) {
    size_t at = 1;
    while (at < t->count && strcmp(t->shots[at].from, t->shots[at - 1].to) == 0) at++;
    return at;
}

/* The longest part that ends where it starts: its first shot and its count, 0 where there is none. */
static size_t closing_part(const traverse *t, size_t *first) {
    size_t longest = 0;
    for (size_t start = 0; start < t->count; start++) {
        size_t end = t->count;
        while (end > start && strcmp(t->shots[start].from, t->shots[end - 1].to) != 0) end--;
        if (end - start > longest) {
            longest = end - start;
            *first = start;
        }
    }
    return longest;
}

bool is_loop(const char *name, const traverse *t) {
    size_t first = 0, off = off_shot(t);
    if (t->count == 0) return note(NO_SHOT, name), false;
    if (off < t->count) return note(STARTS_ELSEWHERE, name, off + 1, t->shots[off].from, t->shots[off - 1].to), false;
    const char *start = t->shots[0].from, *end = t->shots[t->count - 1].to;
    if (strcmp(start, end) == 0) return true;
    size_t closing = closing_part(t, &first);
    if (closing == 0) return note(NO_LOOP, name, start, end), false;
    return note(PART_CLOSES, name, start, end, first + 1, first + closing, t->shots[first].from), false;
}
