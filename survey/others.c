/* Tells what a text is that cannot be read as Survex. */
#include "reader.h"
#include <string.h>

static bool starts_with(const struct survey_file *f, const char *start) {
    return f->length >= strlen(start) && memcmp(f->bytes, start, strlen(start)) == 0;
}

static uint8_t small(uint8_t byte) { return byte >= 'A' && byte <= 'Z' ? (uint8_t)(byte + 32) : byte; }

/* Whether a line starts with these small letters, blanks before them, and a blank, a colon or the end after them. */
static bool line_starts(const uint8_t *at, const uint8_t *end, const char *word) {
    while (at < end && (*at == ' ' || *at == '\t')) at++;
    for (; *word != '\0'; word++, at++) {
        if (at == end || small(*at) != (uint8_t)*word) return false;
    }
    return at == end || *at <= ' ' || *at == ':';
}

/* Whether a line of the text starts so. */
static bool has_line(const struct survey_file *f, const char *word) {
    const uint8_t *at = f->bytes, *end = at + f->length;
    while (at < end) {
        const uint8_t *stop = at;
        while (stop < end && *stop != '\n' && *stop != '\r') stop++;
        if (line_starts(at, stop, word)) return true;
        at = stop + 1;
    }
    return false;
}

/* Words that start lines of a format, and never of Survex. */
static const struct {
    const char *line;
    trouble_kind is;
} LINES[] = {
    {"endsurvey", IS_THERION}, {"centreline", IS_THERION}, {"centerline", IS_THERION},  {"endcentreline", IS_THERION},
    {"scrap", IS_THERION},     {"endlayout", IS_THERION},  {"survey name", IS_COMPASS}, {"survey date", IS_COMPASS},
    {"#units", IS_WALLS},      {"#date", IS_WALLS},        {"#prefix", IS_WALLS},       {".book", IS_WALLS},
    {".survey", IS_WALLS},     {"#fix", IS_WALLS},
};

static const struct {
    const char *start;
    trouble_kind is;
} STARTS[] = {
    {"Survex 3D Image File", IS_3D}, {"\xff\xfe", IS_UTF16}, {"\xfe\xff", IS_UTF16},       {"PK\x03\x04", IS_ARCHIVE},
    {"\x1f\x8b", IS_ARCHIVE},        {"%PDF", IS_ARCHIVE},   {"\xd0\xcf\x11", IS_ARCHIVE}, {"<?xml", IS_PAGE},
    {"<!DOCTYPE", IS_PAGE},          {"<!doctype", IS_PAGE}, {"<html", IS_PAGE},           {"Top\x03", IS_POCKETTOPO},
};

/* "Name (m, 360)" and "[1]: 2010/05/21" head PocketTopo's text. */
static bool is_pockettopo(const struct survey_file *f) {
    const uint8_t *end = memchr(f->bytes, '\n', f->length), *at = f->bytes;
    for (; end != NULL && at + 4 < end; at++) {
        if (at[0] == '(' && at[1] == 'm' && at[2] == ',') return true;
    }
    return has_line(f, "[1]");
}

/* "#FILE.DAT," lines and a base of coordinates are a project of Compass. */
static bool is_compass_project(const struct survey_file *f) {
    const uint8_t *at = f->bytes;
    for (; at + 4 < f->bytes + f->length; at++) {
        if (at[0] == '.' && small(at[1]) == 'd' && small(at[2]) == 'a' && small(at[3]) == 't' &&
            (at[4] == ',' || at[4] == ';'))
            return true;
    }
    return false;
}

/* A first line that names columns, with commas or semicolons between. */
static bool is_table(const struct survey_file *f) {
    const uint8_t *end = memchr(f->bytes, '\n', f->length);
    size_t between = 0, words = 0, digits = 0;
    for (const uint8_t *at = f->bytes; end != NULL && at < end; at++) {
        between += *at == ',' || *at == ';' || *at == '\t';
        words += small(*at) >= 'a' && small(*at) <= 'z';
        digits += *at >= '0' && *at <= '9';
    }
    return between >= 2 && words >= 4 && digits == 0 && f->bytes[0] != ';';
}

static bool is_number_sign(uint8_t byte) {
    return (byte >= '0' && byte <= '9') || byte == '.' || byte == ',' || byte == '-' || byte == '+';
}

/* Whether a line has four words or more, and two of them from the third on are numbers: so has a leg, however it is
 * written. */
static bool is_like_leg(const uint8_t *at, const uint8_t *end) {
    size_t words = 0, numbers = 0;
    while (at < end) {
        bool number = true;
        while (at < end && *at <= ' ') at++;
        if (at == end) break;
        for (; at<end && * at> ' '; at++) number = number && is_number_sign(*at);
        numbers += number && words >= 2;
        words++;
    }
    return words >= 4 && numbers >= 2;
}

static bool has_leg(const struct survey_file *f) {
    const uint8_t *at = f->bytes, *end = at + f->length;
    while (at < end) {
        const uint8_t *stop = at;
        while (stop < end && *stop != '\n' && *stop != '\r') stop++;
        if (is_like_leg(at, stop)) return true;
        at = stop + 1;
    }
    return false;
}

trouble_kind other_format(const reader *r, const struct survey_file *f) {
    for (size_t j = 0; j < sizeof STARTS / sizeof STARTS[0]; j++) {
        if (starts_with(f, STARTS[j].start)) return STARTS[j].is;
    }
    for (size_t j = 0; j < sizeof LINES / sizeof LINES[0]; j++) {
        if (has_line(f, LINES[j].line)) return LINES[j].is;
    }
    bool binary = memchr(f->bytes, 0, f->length) != NULL;
    if (binary || r->commands > 0) return TROUBLES;
    if (is_table(f)) return IS_TABLE;
    if (r->s->leg_count > 0) return TROUBLES;
    if (is_pockettopo(f)) return IS_POCKETTOPO;
    if (is_compass_project(f)) return IS_COMPASS_PROJECT;
    return has_leg(f) ? TROUBLES : IS_PROSE;
}
