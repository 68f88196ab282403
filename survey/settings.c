/* What holds from a *begin to its *end, and the commands that change names, signs and flags. */
#include "reader.h"
#include <string.h>

settings *now(reader *r) { return &r->scopes[r->depth]; }

bool set_up_settings(reader *r) {
    if (!room_for_one(r, &r->scopes, 0, &r->scope_room, sizeof *r->scopes)) return false;
    settings *s = &r->scopes[0];
    memset(s, 0, sizeof *s);
    s->sign = &DEFAULT_SIGNS;
    s->fields = &DEFAULT_ORDER;
    s->truncate = SIZE_MAX;
    s->trip = SURVEY_NONE;
    default_quantities(s, true, true, true);
    return true;
}

/* ---- Scopes */

void take_begin(reader *r) {
    part label;
    if (r->depth == MOST_SCOPES) {
        complain(r, DEEP_SCOPES, NO_WORD);
        return;
    }
    if (!room_for_one(r, &r->scopes, r->depth + 1, &r->scope_room, sizeof *r->scopes)) return;
    settings inside = *now(r);
    bool named = next_word(r, &label);
    if (named) {
        size_t below = name_below(r, inside.prefix, label);
        if (below != NO_NAME) inside.prefix = below;
        inside.trip = SURVEY_NONE;
    }
    inside.own_trip = named;
    inside.file = r->at.file;
    inside.line = r->at.number;
    inside.label = label;
    r->scopes[++r->depth] = inside;
    ends_here(r);
}

/* The name of a *begin stands with its *end, or none does. */
void take_end(reader *r) {
    part label;
    bool named = next_word(r, &label);
    if (r->depth == r->at.depth) {
        complain(r, NO_BEGIN, label);
        return;
    }
    const settings inside = *now(r);
    r->depth--;
    bool other = named && (inside.label.length == 0 ||
                           name_below(r, now(r)->prefix, label) != name_below(r, now(r)->prefix, inside.label));
    if (other) complain(r, OTHER_END, label);
    ends_here(r);
}

/* Reports each *begin that is open above a depth, and leaves it. */
void check_scopes(reader *r, size_t depth) {
    for (; r->depth > depth; r->depth--) complain_at(r, now(r)->file, now(r)->line, OPEN_BEGIN, now(r)->label);
}

void take_prefix(reader *r) {
    part label;
    if (!next_word(r, &label)) {
        complain(r, BAD_NAME, NO_WORD);
        return;
    }
    size_t below = name_below(r, now(r)->prefix, label);
    if (below != NO_NAME) now(r)->prefix = below;
    ends_here(r);
}

/* ---- Names */

void take_case(reader *r) {
    static const char *const CASES[] = {"tolower", "toupper", "preserve", NULL};
    part word;
    next_word(r, &word);
    int found = index_of(word, CASES);
    if (found < 0) {
        complain(r, BAD_CASE, word);
        return;
    }
    now(r)->as = (letter_case)found;
    ends_here(r);
}

void take_truncate(reader *r) {
    part word;
    double length;
    int decimals;
    next_word(r, &word);
    if (is_word(word, "off")) {
        now(r)->truncate = SIZE_MAX;
    } else if (!read_number(r, word, &length, &decimals) || decimals > 0 || length < 1 || length > MOST_NAME) {
        {
            complain(r, BAD_TRUNCATE, word);
            return;
        }
    } else {
        now(r)->truncate = (size_t)length;
    }
    ends_here(r);
}

void take_alias(reader *r) {
    part kind, from, to;
    next_word(r, &kind);
    next_word(r, &from);
    bool given = next_word(r, &to);
    if (!is_word(kind, "station") || !is_word(from, "-") || (given && !is_word(to, ".."))) {
        complain(r, BAD_ALIAS, given ? to : from);
        return;
    }
    now(r)->dash_is_splay = given;
    ends_here(r);
}

/* ---- What is inferred, and flags */

void take_infer(reader *r) {
    static const char *const WHAT[] = {"plumbs", "equates", "exports", NULL}, *const STATES[] = {"off", "on", NULL};
    part word;
    next_word(r, &word);
    int what = index_of(word, WHAT);
    if (what < 0) {
        complain(r, BAD_INFER, word);
        return;
    }
    next_word(r, &word);
    int on = index_of(word, STATES);
    if (on < 0) {
        complain(r, BAD_INFER, word);
        return;
    }
    if (what == 0) now(r)->infer_plumbs = on == 1;
    if (what == 1) now(r)->infer_equates = on == 1;
    ends_here(r);
}

void take_flags(reader *r) {
    static const char *const FLAGS[] = {"splay", "surface", "duplicate", NULL};
    part word;
    bool on = true;
    bool *flags[] = {&now(r)->splay, &now(r)->surface, &now(r)->duplicate};
    while (next_word(r, &word)) {
        int which = index_of(word, FLAGS);
        if (which >= 0) *flags[which] = on;
        else if (!is_word(word, "not")) {
            complain(r, BAD_FLAG, word);
            return;
        }
        on = which >= 0;
    }
    if (!on) complain(r, BAD_FLAG, NO_WORD);
}

/* ---- Signs */

static int hex_digit(uint8_t byte) {
    if (byte >= '0' && byte <= '9') return byte - '0';
    byte = (uint8_t)(byte | 32);
    return byte >= 'a' && byte <= 'f' ? byte - 'a' + 10 : -1;
}

/* The sign at a place of a word, x20 being that of number 32; how many bytes it takes, 0 where a letter or digit stands
 * there. */
static size_t sign_at(part word, size_t at, uint8_t *sign) {
    uint8_t byte = word.bytes[at];
    if ((byte | 32) == 'x' && at + 2 < word.length + 0 && hex_digit(word.bytes[at + 1]) >= 0 &&
        hex_digit(word.bytes[at + 2]) >= 0) {
        *sign = (uint8_t)(hex_digit(word.bytes[at + 1]) * 16 + hex_digit(word.bytes[at + 2]));
        return 3;
    }
    *sign = byte;
    return 1;
}

static bool is_letter_or_digit(uint8_t byte) {
    return hex_digit(byte) >= 0 || ((byte | 32) >= 'a' && (byte | 32) <= 'z');
}

/* Gives the signs of a word this use, and takes it from all others. */
static void use_signs(reader *r, part word, unsigned use) {
    signs *made = allot(r, sizeof *made);
    if (made == NULL) return;
    *made = *now(r)->sign;
    for (size_t j = 0; j < 256; j++) made->of[j] = (uint16_t)(made->of[j] & ~use);
    for (size_t at = 0; at < word.length;) {
        uint8_t sign;
        at += sign_at(word, at, &sign);
        if (is_letter_or_digit(sign)) {
            complain(r, SET_LETTER, word);
            return;
        }
        made->of[sign] = (uint16_t)(made->of[sign] | use);
    }
    now(r)->sign = made;
}

void take_set(reader *r) {
    static const char *const ITEMS[] = {"blank", "comment", "decimal", "eol",  "keyword",   "minus",
                                        "names", "omit",    "plus",    "root", "separator", NULL};
    part word, item;
    next_word(r, &item);
    int which = index_of(item, ITEMS);
    if (which < 0) {
        complain(r, BAD_SET, item);
        return;
    }
    const uint8_t *start = r->at.word;
    while (start < r->at.line_end && has_sign(r, *start, SIGN_BLANK)) start++;
    r->at.word = start;
    while (r->at.word < r->at.line_end && !has_sign(r, *r->at.word, SIGN_BLANK))
        r->at.word++; /* a comment's sign may be set */
    word = (part){start, (size_t)(r->at.word - start)};
    use_signs(r, word, 1u << which);
    r->at.word = r->at.line_end;
}
