/* Files: the lines of one, and those that it includes. */
#include "reader.h"
#include <stdlib.h>
#include <string.h>

/* ---- Reading a file */

static bool is_utf8(const uint8_t *at, const uint8_t *end) {
    while (at < end) {
        size_t more = *at < 0x80                  ? 0
                      : *at >= 0xc2 && *at < 0xe0 ? 1
                      : *at >= 0xe0 && *at < 0xf0 ? 2
                      : *at >= 0xf0 && *at < 0xf5 ? 3
                                                  : SIZE_MAX;
        if (more >= (size_t)(end - at)) return false;
        for (at++; more > 0; more--, at++) {
            if ((*at & 0xc0) != 0x80) return false;
        }
    }
    return true;
}

size_t add_file(reader *r, const char *name, const uint8_t *bytes, size_t length) {
    struct survey *s = r->s;
    if (!room_for_one(r, &s->files, s->file_count, &r->file_room, sizeof *s->files)) return SURVEY_NONE;
    char *called = copy_of(r, (part){(const uint8_t *)name, strlen(name)}), *copied = copy_of(r, (part){bytes, length});
    if (called == NULL || copied == NULL) return SURVEY_NONE;
    s->files[s->file_count] = (struct survey_file){called, (const uint8_t *)copied, length, false};
    return s->file_count++;
}

static void start_file(reader *r, size_t file) {
    static const uint8_t MARK[3] = {0xef, 0xbb, 0xbf}; /* what some editors put before UTF-8 */
    const struct survey_file *f = &r->s->files[file];
    const uint8_t *start = f->bytes, *end = start + f->length;
    if (f->length >= sizeof MARK && memcmp(start, MARK, sizeof MARK) == 0) start += sizeof MARK;
    r->at = (cursor){file, 0, now(r)->prefix, r->depth, start, start, start, start, end};
    r->latin1 = r->s->files[file].latin1 = !is_utf8(start, end);
}

static void take_line(reader *r) {
    part word;
    const uint8_t *start = r->at.word;
    if (!next_word(r, &word)) {
        if (r->at.word == r->at.line_end) end_traverse(r); /* a comment ends nothing */
        return;
    }
    bool command = has_sign(r, word.bytes[0], SIGN_KEYWORD);
    r->at.word = command ? word.bytes + 1 : start; /* blanks may follow the sign */
    if (command) take_command(r);
    else take_data_line(r);
}

/* A byte 0 is reported where it first stands, and nothing of the file is read. */
static bool has_zero(reader *r) {
    const uint8_t *zero = memchr(r->at.word, 0, (size_t)(r->at.end - r->at.word));
    if (zero == NULL) return false;
    while (r->at.next <= zero && next_line(r)) {}
    complain(r, ZERO_BYTE, NO_WORD);
    return true;
}

/* *begin and *end of a file belong together, and its prefix ends with it. */
void read_file(reader *r, size_t file) {
    cursor outside = r->at;
    bool latin1 = r->latin1;
    size_t prefix = now(r)->prefix, depth = r->depth;
    r->open[r->open_count++] = file;
    start_file(r, file);
    if (!has_zero(r)) {
        while (!r->no_memory && next_line(r)) take_line(r);
    }
    end_traverse(r);
    check_scopes(r, depth);
    now(r)->prefix = prefix;
    r->open_count--;
    r->at = outside;
    r->latin1 = latin1;
}

/* ---- *include */

/* The file of that name, fetched where it was not before; SURVEY_NONE where there is none. */
static size_t find_file(reader *r, const char *name) {
    uint8_t *bytes = NULL;
    size_t length = 0;
    for (size_t j = 0; j < r->s->file_count; j++) {
        if (strcmp(r->s->files[j].name, name) == 0) return j;
    }
    if (r->fetch == NULL || !r->fetch(r->context, name, &bytes, &length)) return SURVEY_NONE;
    size_t added = add_file(r, name, bytes, length);
    free(bytes);
    return added;
}

/* A name beside the file that is read, unless it is complete; with .svx behind it, or not. */
static size_t find_beside(reader *r, const char *name) {
    const char *parent = r->s->files[r->at.file].name, *end = parent + strlen(parent);
    while (end > parent && end[-1] != '/' && end[-1] != '\\') end--;
    bool complete = name[0] == '/' || name[0] == '\\' || (name[0] != '\0' && name[1] == ':');
    size_t folder = complete ? 0 : (size_t)(end - parent), length = strlen(name);
    char *tried = allot(r, folder + length + sizeof ".svx");
    if (tried == NULL) return SURVEY_NONE;
    memcpy(tried, parent, folder);
    memcpy(tried + folder, name, length + 1);
    size_t found = find_file(r, tried);
    if (found != SURVEY_NONE) return found;
    memcpy(tried + folder + length, ".svx", sizeof ".svx");
    return find_file(r, tried);
}

/* As Survex tries them: as written, then \ for /, then with small letters. */
static size_t find_included(reader *r, part word) {
    char *name = copy_of(r, word);
    if (name == NULL) return SURVEY_NONE;
    size_t found = find_beside(r, name);
    for (char *at = name; *at != '\0'; at++) *at = *at == '\\' ? '/' : *at;
    if (found == SURVEY_NONE) found = find_beside(r, name);
    for (char *at = name; *at != '\0'; at++) *at = *at >= 'A' && *at <= 'Z' ? (char)(*at + 32) : *at;
    return found != SURVEY_NONE ? found : find_beside(r, name);
}

static bool is_open(const reader *r, size_t file) {
    for (size_t j = 0; j < r->open_count; j++) {
        if (r->open[j] == file) return true;
    }
    return false;
}

/* Reads a file, and notes where. */
static void read_included(reader *r, size_t file) {
    struct survey *s = r->s;
    const uint8_t *bytes = s->files[r->at.file].bytes;
    size_t number = s->include_count;
    if (!room_for_one(r, &s->includes, number, &r->include_room, sizeof *s->includes)) return;
    s->includes[s->include_count++] = (struct survey_include){
        r->at.file, (size_t)(r->at.line - bytes), (size_t)(r->at.next - bytes), file, s->leg_count, 0};
    read_file(r, file);
    s->includes[number].last = s->leg_count;
}

void take_include(reader *r) {
    part word = next_string(r);
    if (word.length == 0) {
        complain(r, LACKS_FILE_NAME, NO_WORD);
        return;
    }
    if (r->open_count == MOST_DEEP) {
        complain(r, DEEP_FILES, word);
        return;
    }
    if (++r->includes > MOST_INCLUDES) {
        complain(r, MANY_FILES, word);
        return;
    }
    size_t file = find_included(r, word);
    if (file == SURVEY_NONE) {
        complain(r, r->fetch == NULL ? NO_FILES_HERE : NO_FILE, word);
        return;
    }
    if (is_open(r, file)) {
        complain(r, CYCLE, word);
        return;
    }
    if (ends_here(r)) read_included(r, file);
}
