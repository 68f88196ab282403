/* Reads the shots of a text that the library accepted, so that every line has its form and every number its range. */
#include "traverse.h"
#include <inttypes.h>
#include <stdio.h>
#include <string.h>

/* One line as a shot; the lines of seeds and sigmas, a listing's header and its end are none. */
static bool read_shot(const char *line, bool listed, shot *s) {
    if (listed) return sscanf(line, "%12s %12s %" SCNu32 " %" SCNu32, s->from, s->to, &s->distance, &s->bearing) == 4;
    return sscanf(line, "(shot %12s %12s %" SCNu32 " %" SCNu32, s->from, s->to, &s->distance, &s->bearing) == 4;
}

void read_shots(const uint8_t *bytes, size_t length, bool listed, traverse *read) {
    read->count = 0;
    for (size_t at = 0; at < length && read->count < MOST_SHOTS;) {
        const uint8_t *feed = memchr(bytes + at, '\n', length - at);
        size_t size = (feed == NULL ? length : (size_t)(feed - bytes)) - at;
        char line[128];
        snprintf(line, sizeof line, "%.*s", size < sizeof line ? (int)size : (int)sizeof line - 1,
                 (const char *)bytes + at);
        if (read_shot(line, listed, &read->shots[read->count])) read->count++;
        at += size + 1;
    }
}
