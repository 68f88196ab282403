/* What is wrong with the line of a survey that the library refused: tests for the table of sentences, in the order in
 * which they are asked. */
#include "command.h"
#include <string.h>

/* A field of the line, without bytes where there is none. */
typedef struct {
    const uint8_t *bytes;
    size_t length;
} field;

static bool is_blank(uint8_t byte) { return byte == ' ' || byte == '\t'; }
static bool is_digit(uint8_t byte) { return byte >= '0' && byte <= '9'; }
static bool is_letter(uint8_t byte) { return (byte >= 'A' && byte <= 'Z') || (byte >= 'a' && byte <= 'z'); }

/* The end of what remains of a line: a comment and a line feed do not. */
static const uint8_t *end_of(const uint8_t *line, const uint8_t *end) {
    while (line < end && *line != ';' && *line != '\n') line++;
    return line;
}

/* The field after so many others. */
static field field_after(const bad_line *line, size_t others) {
    const uint8_t *at = line->bytes, *end = end_of(at, at + line->length);
    for (;; others--) {
        while (at < end && is_blank(*at)) at++;
        const uint8_t *start = at;
        while (at < end && !is_blank(*at)) at++;
        if (others == 0 || at == end) return (field){start, others == 0 ? (size_t)(at - start) : 0};
    }
}

/* Whether no line before this one remains, so that this one has to be the data line. */
static bool is_first_left(const bad_line *line) {
    for (const uint8_t *at = line->text; at < line->bytes;) {
        const uint8_t *end = end_of(at, line->bytes), *feed = memchr(at, '\n', (size_t)(line->bytes - at));
        while (at < end && is_blank(*at)) at++;
        if (at < end || feed == NULL) return false;
        at = feed + 1;
    }
    return true;
}

bool is_command(const bad_line *line) {
    field first = field_after(line, 0);
    return first.length > 0 && first.bytes[0] == '*';
}

bool is_other_data_line(const bad_line *line) {
    static const char DATA[] = "*data";
    field first = field_after(line, 0);
    if (first.length != strlen(DATA) || !is_first_left(line)) return false;
    for (size_t j = 0; j < first.length; j++) {
        if ((is_letter(first.bytes[j]) ? first.bytes[j] | 32 : first.bytes[j]) != DATA[j]) return false;
    }
    return true;
}

bool lacks_data_line(const bad_line *line) { return is_first_left(line); }
bool has_few_fields(const bad_line *line) { return field_after(line, 4).length == 0; }
bool has_many_fields(const bad_line *line) { return field_after(line, 5).length > 0; }

static bool is_name(field name) {
    for (size_t j = 0; j < name.length; j++) {
        if (!is_letter(name.bytes[j]) && !is_digit(name.bytes[j])) return false;
    }
    return name.length <= 12;
}

bool has_bad_from(const bad_line *line) { return !is_name(field_after(line, 0)); }
bool has_bad_to(const bad_line *line) { return !is_name(field_after(line, 1)); }

/* How many digits stand from a place of a field on. */
static size_t digits_from(field number, size_t from) {
    size_t at = from;
    while (at < number.length && is_digit(number.bytes[at])) at++;
    return at - from;
}

bool has_bad_tape(const bad_line *line) {
    field tape = field_after(line, 2);
    size_t whole = digits_from(tape, 0), decimals = digits_from(tape, whole + 1);
    if (whole < 1 || whole > 4) return true;
    return tape.length > whole &&
           (tape.bytes[whole] != '.' || decimals < 1 || decimals > 3 || tape.length > whole + 1 + decimals);
}

/* Whether a number, which has its form, is above a whole one. */
static bool is_above(field number, unsigned most) {
    unsigned whole = 0;
    bool more = false;
    size_t length = digits_from(number, 0);
    for (size_t j = 0; j < length; j++) whole = whole * 10 + (unsigned)(number.bytes[j] - '0');
    for (size_t j = length + 1; j < number.length; j++) more = more || number.bytes[j] != '0';
    return whole > most || (whole == most && more);
}

bool has_long_tape(const bad_line *line) { return is_above(field_after(line, 2), 1000); }
bool has_large_compass(const bad_line *line) { return is_above(field_after(line, 3), 360); }
