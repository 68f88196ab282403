/* What was played as Survex: of a job, a listing or a strict survey, in metres and degrees. */
#include "level.h"
#include "list.h"
#include <inttypes.h>
#include <stdio.h>
#include <string.h>
#include <strings.h>

void put_head(const playing *p, growing *to) {
    const uint32_t *n = p->seeds;
    add(to, "; made by jabulghi list: ");
    put_name(p->s.source.name, to);
    add(to, " with noise, " SEEDS_LINE " (sigma %" PRIu32 " %" PRIu32 "), from pair %" PRIu64 " on\n", n[0], n[1], n[2],
        n[3], n[4], n[5], p->s.sigma[0], p->s.sigma[1], p->before);
}

/* A distance in metres, and a bearing in degrees: five decimals are less than a tenth of a millimetre off at 1 km. */
typedef struct {
    char tape[16], compass[16];
} numbers;

static numbers numbers_of(const shot *row) {
    numbers made;
    uint64_t parts = ((uint64_t)row->bearing * 36000000 + 32768) / 65536;
    snprintf(made.tape, sizeof made.tape, "%" PRIu32 ".%03" PRIu32, row->distance / 1000, row->distance % 1000);
    snprintf(made.compass, sizeof made.compass, "%" PRIu64 ".%05" PRIu64, parts / 100000, parts % 100000);
    return made;
}

/* A job tells names apart by their letters' case. */
static void put_rows(const playing *p, growing *to) {
    add(to, "*case preserve\n*data normal from to tape compass clino\n");
    for (size_t j = 0; j < p->count; j++) {
        numbers n = numbers_of(&p->rows[j]);
        add(to, "%s %s %s %s 0\n", p->rows[j].from, p->rows[j].to, n.tape, n.compass);
    }
}

/* ---- A strict survey keeps its lines */

static bool is_blank(uint8_t byte) { return byte == ' ' || byte == '\t'; }

/* The place after the blanks and the field that follow. */
static const uint8_t *after_field(const uint8_t *at) {
    while (is_blank(*at)) at++;
    while (!is_blank(*at)) at++;
    return at;
}

static const uint8_t *after_blanks(const uint8_t *at) {
    while (is_blank(*at)) at++;
    return at;
}

/* A leg's line with other numbers for tape and compass; the library has taken the survey, so that it has five fields.
 */
static void put_line(const uint8_t *line, const uint8_t *end, const shot *row, growing *to) {
    numbers n = numbers_of(row);
    const uint8_t *tape = after_blanks(after_field(after_field(line))), *tape_end = after_field(tape);
    const uint8_t *compass = after_blanks(tape_end), *rest = after_field(compass);
    add_bytes(to, line, (size_t)(tape - line));
    add(to, "%s", n.tape);
    add_bytes(to, tape_end, (size_t)(compass - tape_end));
    add(to, "%s", n.compass);
    add_bytes(to, rest, (size_t)(end - rest));
}

/* The data line is the first that says something. */
static void put_lines(const playing *p, growing *to) {
    const uint8_t *at = p->s.source.bytes, *end = at + p->s.source.length;
    for (size_t said = 0; at < end;) {
        const uint8_t *next = (const uint8_t *)memchr(at, '\n', (size_t)(end - at)) + 1;
        bool says = says_something(at, next);
        if (says && said > 0) put_line(at, next, &p->rows[said - 1], to);
        else add_bytes(to, at, (size_t)(next - at));
        said += says;
        at = next;
    }
}

/* Survex tells the names of a survey not apart by their letters' case. */
int put_svx(const playing *p, growing *to) {
    for (size_t j = 0; j < p->count; j++) {
        if ((p->s.about == SURVEY ? strcasecmp : strcmp)(p->rows[j].from, p->rows[j].to) == 0)
            return refuse_leg(p->s.source.name, line_in_source(&p->s, j + 3), TO_ITSELF);
    }
    put_head(p, to);
    if (p->s.about == SURVEY) put_lines(p, to);
    else put_rows(p, to);
    return DONE;
}
