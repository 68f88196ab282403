/* Lines, words and numbers of a Survex text. */
#include "reader.h"
#include <string.h>

const signs DEFAULT_SIGNS = {{
    [' '] = SIGN_BLANK,
    ['\t'] = SIGN_BLANK,
    [','] = SIGN_BLANK,
    [0x1a] = SIGN_BLANK, /* the end mark of old systems */
    [';'] = SIGN_COMMENT,
    ['.'] = SIGN_DECIMAL | SIGN_SEPARATOR,
    ['\n'] = SIGN_EOL,
    ['\r'] = SIGN_EOL,
    ['*'] = SIGN_KEYWORD,
    ['-'] = SIGN_MINUS | SIGN_OMIT | SIGN_NAMES,
    ['_'] = SIGN_NAMES,
    ['+'] = SIGN_PLUS,
    ['\\'] = SIGN_ROOT,
}};

bool has_sign(const reader *r, uint8_t byte, unsigned sign) { return (r->scopes[r->depth].sign->of[byte] & sign) != 0; }

/* A line ends with a line feed, a carriage return or both; the last one may lack it. */
bool next_line(reader *r) {
    cursor *c = &r->at;
    const uint8_t *at = c->next;
    if (at == c->end) return false;
    c->word = c->line = at;
    while (at < c->end && !has_sign(r, *at, SIGN_EOL)) at++;
    c->line_end = at;
    if (at < c->end) at++;
    if (at > c->line_end && at < c->end && has_sign(r, *at, SIGN_EOL) && *at != at[-1]) at++;
    c->next = at;
    c->number++;
    r->bad_line = false;
    return true;
}

bool next_word(reader *r, part *word) {
    cursor *c = &r->at;
    while (c->word < c->line_end && has_sign(r, *c->word, SIGN_BLANK)) c->word++;
    const uint8_t *start = c->word;
    while (c->word < c->line_end && !has_sign(r, *c->word, SIGN_BLANK | SIGN_COMMENT)) c->word++;
    *word = (part){start, (size_t)(c->word - start)};
    return word->length > 0;
}

bool peek_word(reader *r, part *word) {
    const uint8_t *start = r->at.word;
    bool found = next_word(r, word);
    r->at.word = start;
    return found;
}

/* A word, or what stands between quotes. */
part next_string(reader *r) {
    cursor *c = &r->at;
    part word;
    if (!peek_word(r, &word) || word.bytes[0] != '"') return next_word(r, &word), word;
    const uint8_t *start = word.bytes + 1, *end = memchr(start, '"', (size_t)(c->line_end - start));
    if (end == NULL) end = c->line_end;
    c->word = end < c->line_end ? end + 1 : end;
    return (part){start, (size_t)(end - start)};
}

bool ends_here(reader *r) {
    part word;
    if (!next_word(r, &word)) return true;
    complain(r, MORE_WORDS, word);
    return false;
}

static uint8_t small(uint8_t byte) { return byte >= 'A' && byte <= 'Z' ? (uint8_t)(byte + 32) : byte; }

bool is_word(part word, const char *small_letters) {
    if (word.length != strlen(small_letters)) return false;
    for (size_t j = 0; j < word.length; j++) {
        if (small(word.bytes[j]) != (uint8_t)small_letters[j]) return false;
    }
    return true;
}

/* The place of a word in a list that NULL ends, or -1. */
int index_of(part word, const char *const *small_letters) {
    for (int j = 0; small_letters[j] != NULL; j++) {
        if (is_word(word, small_letters[j])) return j;
    }
    return -1;
}

/* ---- Numbers */

static const double TENS[] = {1e0,  1e1,  1e2,  1e3,  1e4,  1e5,  1e6,  1e7,  1e8, 1e9,
                              1e10, 1e11, 1e12, 1e13, 1e14, 1e15, 1e16, 1e17, 1e18};

/* Digits as a whole number and how many of them stand after the point. Those that would make it 10^17 or more are
 * dropped: after the point they are below what a double can tell, and before it the number is then 10^18. */
typedef struct {
    uint64_t whole;
    int decimals, dropped;
    bool digits, pointed, too_large;
} digits;

static void add_digit(digits *d, unsigned digit) {
    d->digits = true;
    if (d->whole >= 10000000000000000u) {
        d->too_large = d->too_large || !d->pointed;
        d->dropped += d->pointed;
        return;
    }
    d->whole = d->whole * 10 + digit;
    d->decimals += d->pointed;
}

bool read_number(const reader *r, part word, double *number, int *decimals) {
    digits d = {0, 0, 0, false, false, false};
    size_t at = word.length > 0 && has_sign(r, word.bytes[0], SIGN_MINUS | SIGN_PLUS);
    bool minus = at > 0 && has_sign(r, word.bytes[0], SIGN_MINUS);
    for (; at < word.length; at++) {
        uint8_t byte = word.bytes[at];
        if (has_sign(r, byte, SIGN_DECIMAL) && !d.pointed) {
            d.pointed = true;
        } else if (byte >= '0' && byte <= '9') {
            add_digit(&d, byte - (unsigned)'0');
        } else {
            return false;
        }
    }
    if (!d.digits) return false;
    *number = (d.too_large ? TENS[18] : (double)d.whole / TENS[d.decimals]) * (minus ? -1 : 1);
    if (decimals != NULL) *decimals = d.decimals + d.dropped;
    return true;
}

/* The next word as a number; where there is none it is reported. */
bool next_number(reader *r, double *number) {
    part word;
    if (!next_word(r, &word)) return complain(r, LACKS_NUMBER, NO_WORD), false;
    if (!read_number(r, word, number, NULL)) return complain(r, BAD_NUMBER, word), false;
    return true;
}

/* ---- Decimal commas */

static bool is_digit_at(const cursor *c, const uint8_t *at) {
    return at >= c->line && at < c->line_end && *at >= '0' && *at <= '9';
}

static bool is_blank_or_end(const reader *r, const uint8_t *at) {
    return at < r->at.line || at >= r->at.line_end || *at == ' ' || *at == '\t' || has_sign(r, *at, SIGN_COMMENT);
}

/* The digits about a comma, where blanks stand around them. */
static part about_comma(const reader *r, const uint8_t *comma) {
    const cursor *c = &r->at;
    const uint8_t *start = comma, *end = comma + 1;
    while (is_digit_at(c, start - 1)) start--;
    while (is_digit_at(c, end)) end++;
    bool signed_number = start > c->line && (start[-1] == '-' || start[-1] == '+');
    bool alone = is_blank_or_end(r, start - 1 - signed_number) && is_blank_or_end(r, end);
    return start < comma && end > comma + 1 && alone ? (part){start, (size_t)(end - start)} : NO_WORD;
}

/* A number of the line with a comma for its point, blanks standing around it; NO_WORD where there is none. */
part decimal_comma(const reader *r) {
    part found = NO_WORD;
    for (const uint8_t *at = r->at.line; at < r->at.line_end && found.length == 0; at++) {
        if (has_sign(r, *at, SIGN_COMMENT)) break;
        if (*at == ',' && has_sign(r, ',', SIGN_BLANK)) found = about_comma(r, at);
    }
    return found;
}
