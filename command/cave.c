/* Reads a survey with the files that it includes, and says what is wrong with it. */
#include "cave.h"
#include "level.h"
#include <errno.h>
#include <inttypes.h>
#include <stdlib.h>
#include <string.h>
#include <sys/stat.h>

/* A name that no file has, or a folder, is tried and forgotten: the reader says which it tried. */
static bool fetch(void *context, const char *name, uint8_t **bytes, size_t *length) {
    text file;
    unsigned mode = system_mode(name);
    (void)context;
    if (mode == 0 || S_ISDIR(mode) || read_text(name, &file) != DONE) return false;
    *bytes = file.bytes;
    *length = file.length;
    return true;
}

/* Standard input has no files beside it. */
survey_fetch *fetch_of(const text *source) { return strcmp(source->name, "standard input") == 0 ? NULL : fetch; }

void tell_messages(const struct survey *s) {
    growing said = {NULL, 0, 0, false};
    say_messages(s, &said);
    if (said.length > 0) put_error("%s", said.bytes);
    free(said.bytes);
}

static int accept(struct survey *s, const char *name) {
    if (s == NULL) return trouble(name, strerror(ENOMEM));
    tell_messages(s);
    return s->trouble_count == 0 ? DONE : TROUBLE;
}

int read_cave(const text *source, struct survey **read) {
    *read = survey_read(source->name, source->bytes, source->length, fetch_of(source), NULL);
    return accept(*read, source->name);
}

/* Millimetres and steps, of which a turn has 65536, as units of their own; lines before the first shot are not those of
 * the text that it came from. */
static const char HEAD[] = "*case preserve\n*units tape 0.001 metres\n*units compass 0.0054931640625 degrees\n*data "
                           "normal from to tape compass\n";
enum { HEAD_LINES = 4 };

int cave_of_shots(const survey *from, struct survey **read) {
    static traverse shots;
    growing written = {NULL, 0, 0, false};
    size_t before = from->about == JOB ? 2 : 1;
    read_shots(from->shots, from->length, false, &shots);
    add(&written, "%s", HEAD);
    for (size_t j = 0; j < shots.count; j++)
        add(&written, "%s %s %" PRIu32 " %" PRIu32 "\n", shots.shots[j].from, shots.shots[j].to,
            shots.shots[j].distance, shots.shots[j].bearing);
    if (written.failed) return trouble(from->source.name, strerror(ENOMEM));
    *read = survey_read(from->source.name, (const uint8_t *)written.bytes, written.length, NULL, NULL);
    free(written.bytes);
    for (size_t j = 0; *read != NULL && j < (*read)->leg_count; j++) (*read)->legs[j].line -= HEAD_LINES - before;
    return accept(*read, from->source.name);
}
